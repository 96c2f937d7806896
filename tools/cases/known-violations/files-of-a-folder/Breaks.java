// File.listFiles gives an array of files that are opened, closed and read.
import java.io.*;

public final class Breaks {
    static void head(File each) throws IOException {
        FileInputStream in = new FileInputStream(each.getPath());
        in.close();
        System.out.println(in.read());  // errs here
    }

    public static void main(String[] args) throws IOException {
        final File made = File.createTempFile("known", ".tmp");
        made.deleteOnExit();
        File[] all = made.getParentFile().listFiles(new FileFilter() {
            public boolean accept(File each) { return each.equals(made); }
        });
        for (File each : all) {
            head(each);
        }
    }
}
