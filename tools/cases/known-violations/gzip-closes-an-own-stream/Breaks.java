// GZIPOutputStream.close calls close of the own stream below.
import java.io.*;
import java.util.zip.GZIPOutputStream;

public final class Breaks {
    static final class Checked extends OutputStream {
        final OutputStream out;
        int sum;
        Checked(OutputStream out) { this.out = out; }
        public void write(int each) throws IOException { sum += each; out.write(each); }
        public void close() throws IOException { out.close(); }
    }

    static String path() throws IOException {
        File made = File.createTempFile("known", ".tmp");
        made.deleteOnExit();
        return made.getPath();
    }

    public static void main(String[] args) throws IOException {
        FileOutputStream file = new FileOutputStream(path());
        Checked checked = new Checked(file);
        DataOutputStream zipped = new DataOutputStream(new GZIPOutputStream(checked));
        zipped.writeInt(65);
        zipped.close();
        file.write(checked.sum);  // errs here
    }
}
