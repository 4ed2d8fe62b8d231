import mote.Console;

/** Shows Hi. */
public class Hi {
    public static void main() {
        Console.write('H');
        Console.write('i');
    }
}
