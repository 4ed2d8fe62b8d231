package mote;

import java.io.IOException;

/**
 * The console of a mote, for compiling and for Java machines. On a mote the class belongs to the machine, and
 * is named in no command. Here its methods use the standard streams, and end the program with status 8 where
 * these fail, as a mote does.
 */
public final class Console {
    private Console() {
    }

    /** Shows the low eight bits of a number as one byte. */
    public static void write(int value) {
        System.out.write(value);
        sent();
    }

    /** Shows a number in decimal. */
    public static void print(int value) {
        System.out.print(value);
        sent();
    }

    /** The next byte of the input, as 0 to 255, or -1 at its end. */
    public static int read() {
        try {
            return System.in.read();
        } catch (IOException failed) {
            throw fault();
        }
    }

    private static void sent() {
        if (System.out.checkError()) {
            throw fault();
        }
    }

    private static Error fault() {
        Runtime.getRuntime().halt(8);
        return new Error();
    }
}
