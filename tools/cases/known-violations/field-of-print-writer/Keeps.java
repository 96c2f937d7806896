// A subclass of PrintWriter closes the field out, which the library wrote.
import java.io.*;

public final class Keeps {
    static final class Report extends PrintWriter {
        Report(Writer to) { super(to); }
        void end() throws IOException { out.close(); }
    }

    static String path() throws IOException {
        File made = File.createTempFile("known", ".tmp");
        made.deleteOnExit();
        return made.getPath();
    }

    public static void main(String[] args) throws IOException {
        FileWriter file = new FileWriter(path());
        Report report = new Report(file);
        file.write("more");
        report.end();
    }
}
