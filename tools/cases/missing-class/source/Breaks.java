import java.io.Closeable;
import java.io.FileReader;
import java.io.IOException;
import java.io.Reader;

/** Reads after the close, behind what a native method gives or throws of a class that the jar does not have. */
public final class Breaks {
    private Breaks() {
    }

    /** The object is no null: its method returns. */
    public static void result() throws IOException {
        Reader reader = new FileReader("file");
        reader.close();
        System.out.println(Device.thing().hashCode());
        reader.read();
    }

    /** The exception is an IOException. */
    public static void exception() throws IOException {
        Reader reader = new FileReader("file");
        reader.close();
        try {
            Device.fail();
        } catch (IOException fault) {
            reader.read();
        }
    }

    /** The object is a Closeable: its method returns. */
    public static void cast() throws IOException {
        Reader reader = new FileReader("file");
        reader.close();
        Object thing = Device.thing();
        ((Closeable) thing).close();
        reader.read();
    }
}
