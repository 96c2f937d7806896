// toArray hands out objects whose code closes.
import java.io.*;
import java.util.*;

public final class Breaks {
    interface Step {
        void run(InputStream in) throws IOException;
    }

    static final class Close implements Step {
        public void run(InputStream in) throws IOException { in.close(); }
    }

    static String path() throws IOException {
        File made = File.createTempFile("known", ".tmp");
        made.deleteOnExit();
        return made.getPath();
    }

    public static void main(String[] args) throws IOException {
        Vector<Step> steps = new Vector<Step>();
        steps.add(new Close());
        FileInputStream file = new FileInputStream(path());
        for (Step each : steps.toArray(new Step[0])) {
            each.run(file);
        }
        System.out.println(file.read());  // errs here
    }
}
