// ZipFile.close closes the streams that it gave (the call is the library's).
import java.io.*;
import java.util.zip.*;

public final class Breaks {
    static String zipped() throws IOException {
        File made = File.createTempFile("known", ".zip");
        made.deleteOnExit();
        ZipOutputStream zip = new ZipOutputStream(new FileOutputStream(made.getPath()));
        zip.putNextEntry(new ZipEntry("a.txt"));
        zip.write(new byte[100], 0, 100);
        zip.close();
        return made.getPath();
    }

    public static void main(String[] args) throws IOException {
        ZipFile zip = new ZipFile(zipped());
        InputStream in = zip.getInputStream(zip.getEntry("a.txt"));
        zip.close();
        System.out.println(in.read());  // errs here
    }
}
