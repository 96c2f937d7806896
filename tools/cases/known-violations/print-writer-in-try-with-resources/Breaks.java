// The end of a try closes a PrintWriter, and with it the own writer below.
import java.io.*;

public final class Breaks {
    static final class Indented extends FilterWriter {
        Indented(Writer out) { super(out); }
        public void close() throws IOException { out.write("end"); out.close(); }
    }

    static String path() throws IOException {
        File made = File.createTempFile("known", ".tmp");
        made.deleteOnExit();
        return made.getPath();
    }

    public static void main(String[] args) throws IOException {
        FileWriter file = new FileWriter(path());
        try (PrintWriter lines = new PrintWriter(new BufferedWriter(new Indented(file)))) {
            lines.println("first");
        }
        file.write("second");  // errs here
    }
}
