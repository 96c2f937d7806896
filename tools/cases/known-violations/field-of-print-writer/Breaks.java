// A subclass of PrintWriter closes the field out, which the library wrote.
import java.io.*;

public final class Breaks {
    static final class Report extends PrintWriter {
        Report(Writer to) { super(to); }
        void end() throws IOException { out.close(); }
    }

    static String path() throws IOException {
        File made = File.createTempFile("known", ".tmp");
        made.deleteOnExit();
        return made.getPath();
    }

    public static void main(String[] args) throws IOException {
        FileWriter file = new FileWriter(path());
        Report report = new Report(file);
        report.end();
        file.write("more");  // errs here
    }
}
