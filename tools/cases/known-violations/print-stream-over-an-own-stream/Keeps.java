// An own OutputStream below a PrintStream: close of the PrintStream calls its close.
import java.io.*;

public final class Keeps {
    static final class Tee extends OutputStream {
        final OutputStream one;
        final OutputStream other;
        Tee(OutputStream one, OutputStream other) { this.one = one; this.other = other; }
        public void write(int each) throws IOException { one.write(each); other.write(each); }
        public void close() throws IOException { one.close(); other.close(); }
    }

    static String path() throws IOException {
        File made = File.createTempFile("known", ".tmp");
        made.deleteOnExit();
        return made.getPath();
    }

    public static void main(String[] args) throws IOException {
        FileOutputStream first = new FileOutputStream(path());
        FileOutputStream second = new FileOutputStream(path());
        PrintStream printer = new PrintStream(new Tee(first, second));
        printer.print("text");
        second.write(10);
        printer.close();
    }
}
