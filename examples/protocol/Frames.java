import mote.Console;

/** Reads frames: a length, so many bytes, and the CRC-8 of all of them. */
public class Frames {
    /** The length of the longest frame. */
    static final byte MOST = 64;

    static short frames;
    static char bytes;
    static boolean ended;

    public static void main() {
        while (!ended) {
            answer(frame());
        }
        Console.print(frames);
        Console.write(' ');
        Console.print(bytes);
        Console.write('\n');
    }

    /** What a frame is: 0 for a right one, 1 for a wrong sum, 2 for a wrong length, 3 for a frame that is cut. */
    static byte frame() {
        int length = next();
        if (ended) {
            return -1;
        }
        if (length > MOST) {
            return 2;
        }
        Sum.begin();
        Sum.add((byte) length);
        for (int i = 0; i < length; i++) {
            Sum.add((byte) next());
        }
        byte sum = (byte) next();
        if (ended) {
            return 3;
        }
        frames++;
        return Sum.is(sum) ? (byte) 0 : (byte) 1;
    }

    static int next() {
        int got = Console.read();
        if (got < 0) {
            ended = true;
            return 0;
        }
        bytes++;
        return got;
    }

    static void answer(byte state) {
        Answers.send(state);
    }
}
