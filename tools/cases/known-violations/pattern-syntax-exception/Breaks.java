// A handler of PatternSyntaxException closes.
import java.io.*;
import java.util.regex.*;

public final class Breaks {
    static String path() throws IOException {
        File made = File.createTempFile("known", ".tmp");
        made.deleteOnExit();
        return made.getPath();
    }

    public static void main(String[] args) throws IOException {
        FileInputStream file = new FileInputStream(path());
        try {
            System.out.println(Pattern.compile("(").matcher("x").matches());
        } catch (PatternSyntaxException fault) {
            file.close();
        }
        System.out.println(file.read());  // errs here
    }
}
