// A call-back closes a print stream of the library, which closes the file that it was made from.
import java.io.*;
public final class Breaks {
    static FileOutputStream out;
    static PrintStream print;
    static class Text {
        public String toString() { print.close(); return ""; }
    }
    public static void main(String[] args) throws IOException {
        out = new FileOutputStream("/tmp/red-f.txt");
        print = new PrintStream(out);
        String.valueOf(new Text());
        out.write(1);  // errs here
    }
}
