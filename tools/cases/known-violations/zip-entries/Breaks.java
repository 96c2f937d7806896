// The entries of a zip file come as elements of an Enumeration.
import java.io.*;
import java.util.*;
import java.util.zip.*;

public final class Breaks {
    static String zipped() throws IOException {
        File made = File.createTempFile("known", ".zip");
        made.deleteOnExit();
        ZipOutputStream zip = new ZipOutputStream(new FileOutputStream(made.getPath()));
        zip.putNextEntry(new ZipEntry("a.txt"));
        zip.write(new byte[100], 0, 100);
        zip.close();
        return made.getPath();
    }

    public static void main(String[] args) throws IOException {
        ZipFile zip = new ZipFile(zipped());
        Enumeration<? extends ZipEntry> entries = zip.entries();
        while (entries.hasMoreElements()) {
            ZipEntry entry = entries.nextElement();
            InputStream in = zip.getInputStream(entry);
            in.close();
            System.out.println(in.read());  // errs here
        }
    }
}
