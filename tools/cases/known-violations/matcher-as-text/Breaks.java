// The text of a matcher has the part that was found, and an own text closes the writer when it is asked for a part.
import java.io.*;
import java.util.regex.*;

public final class Breaks {
    static final class Own implements CharSequence {
        final FileWriter to;
        Own(FileWriter to) { this.to = to; }
        public int length() { return 1; }
        public char charAt(int at) { return 'x'; }
        public CharSequence subSequence(int from, int end) {
            try {
                to.close();
            } catch (IOException fault) {
                return null;
            }
            return "x";
        }
    }

    static String path() throws IOException {
        File made = File.createTempFile("known", ".tmp");
        made.deleteOnExit();
        return made.getPath();
    }

    public static void main(String[] args) throws Exception {
        FileWriter file = new FileWriter(path());
        Matcher found = Pattern.compile("x").matcher(new Own(file));
        found.find();
        file.write("start");
        found.toString();
        file.write("end");  // errs here
    }
}
