import mote.Console;

/**
 * Obeys a row of commands of one byte. A number starts at 0: + and - change it by 1, p prints it, q ends, and
 * any other byte is passed over.
 */
public class Commands {
    public static void main() {
        int number = 0;
        int command = Console.read();
        while (command >= 0) {
            switch (command) {
                case '+':
                    number++;
                    break;
                case '-':
                    number--;
                    break;
                case 'p':
                    Console.print(number);
                    Console.write('\n');
                    break;
                case 'q':
                    return;
            }
            command = Console.read();
        }
    }
}
