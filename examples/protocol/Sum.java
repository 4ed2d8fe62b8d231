/** The CRC-8 of the polynomial x^8 + x^2 + x + 1. */
public class Sum {
    static final int POLYNOMIAL = 0x07;

    private static byte sum;

    static void begin() {
        sum = 0;
    }

    static void add(byte value) {
        sum = shifted((byte) (sum ^ value), (byte) 8);
    }

    /** The sum after so many shifts. */
    private static byte shifted(byte rest, byte times) {
        if (times == 0) {
            return rest;
        }
        byte next = (byte) (rest << 1);
        return shifted(rest < 0 ? (byte) (next ^ POLYNOMIAL) : next, (byte) (times - 1));
    }

    static boolean is(byte value) {
        return sum == value;
    }
}
