import java.lang.reflect.InvocationTargetException;

/**
 * Runs a class of a mote on a Java machine: java -cp FOLDERS OnJava CLASS. Java machines start a main with
 * arguments, and a mote starts one without. An exception that leaves main is noted as a mote notes it.
 */
public final class OnJava {
    private OnJava() {
    }

    public static void main(String[] words) throws ReflectiveOperationException {
        try {
            Class.forName(words[0]).getMethod("main").invoke(null);
        } catch (InvocationTargetException thrown) {
            System.err.println("uncaught " + thrown.getCause().getClass().getName().replace('.', '/'));
            System.exit(1);
        }
    }
}
