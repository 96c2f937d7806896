// PrintWriter.close closes the FileWriter below it (the call is the library's).
import java.io.*;

public final class Keeps {
    static String path() throws IOException {
        File made = File.createTempFile("known", ".tmp");
        made.deleteOnExit();
        return made.getPath();
    }

    public static void main(String[] args) throws IOException {
        FileWriter file = new FileWriter(path());
        PrintWriter printer = new PrintWriter(file);
        printer.println("a line");
        file.write("the end");
        printer.close();
    }
}
