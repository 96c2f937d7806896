// The result of openConnection is cast to a class below its type.
import java.io.*;
import java.net.*;
import java.util.zip.*;

public final class Keeps {
    public static void main(String[] args) throws IOException {
        File made = File.createTempFile("known", ".jar");
        made.deleteOnExit();
        ZipOutputStream zip = new ZipOutputStream(new FileOutputStream(made.getPath()));
        zip.putNextEntry(new ZipEntry("a.txt"));
        zip.write(new byte[100]);
        zip.close();
        URL url = new URL("jar:" + made.toURI() + "!/a.txt");
        JarURLConnection connection = (JarURLConnection) url.openConnection();
        InputStream in = connection.getInputStream();
        System.out.println(in.read());
        in.close();
    }
}
