// BufferedOutputStream.flush calls flush of an own FilterOutputStream, which closes the file.
import java.io.*;

public final class Breaks {
    static final class Rotating extends FilterOutputStream {
        final FileOutputStream file;
        Rotating(FileOutputStream file) { super(file); this.file = file; }
        public void flush() throws IOException { file.close(); }
    }

    static String path() throws IOException {
        File made = File.createTempFile("known", ".tmp");
        made.deleteOnExit();
        return made.getPath();
    }

    public static void main(String[] args) throws IOException {
        FileOutputStream file = new FileOutputStream(path());
        BufferedOutputStream log = new BufferedOutputStream(new Rotating(file));
        log.write(65);
        log.flush();
        file.write(66);  // errs here
    }
}
