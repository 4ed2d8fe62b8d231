import mote.Console;

/** Shows the numbers 1 to 10, one a line. */
public class Counter {
    public static void main() {
        for (int i = 1; i <= 10; i++) {
            Console.print(i);
            Console.write('\n');
        }
    }
}
