import mote.Console;

/** Shows each byte that it reads, and at the end of its input their sum. */
public class Sum {
    public static void main() {
        int sum = 0;
        int b = Console.read();
        while (b >= 0) {
            Console.write(b);
            sum += b;
            b = Console.read();
        }
        Console.print(sum);
        Console.write('\n');
    }
}
