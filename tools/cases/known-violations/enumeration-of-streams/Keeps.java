// SequenceInputStream calls nextElement of an own Enumeration, which closes the stream before.
import java.io.*;
import java.util.Enumeration;

public final class Keeps {
    static final class Parts implements Enumeration<InputStream> {
        final FileInputStream first;
        int given;
        Parts(FileInputStream first) { this.first = first; }
        public boolean hasMoreElements() { return given < 1; }
        public InputStream nextElement() {
            given++;
            try { first.close(); } catch (IOException fault) { given = 1; }
            return new ByteArrayInputStream(new byte[2]);
        }
    }

    static String path() throws IOException {
        File made = File.createTempFile("known", ".tmp");
        made.deleteOnExit();
        return made.getPath();
    }

    public static void main(String[] args) throws IOException {
        FileInputStream first = new FileInputStream(path());
        System.out.println(first.read());
        InputStream all = new SequenceInputStream(new Parts(first));
        System.out.println(all.available());
    }
}
