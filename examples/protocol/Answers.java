import mote.Console;

/** The answers to frames. */
public class Answers {
    /** How many answers are left of those that a node sends. */
    static short left = 1000;

    static void send(byte state) {
        if (state < 0 || left == 0) {
            return;
        }
        left--;
        if (state == 0) {
            Console.write('O');
            Console.write('K');
        } else {
            Console.write('E');
            Console.print(state);
        }
        Console.write('\n');
    }
}
