// URLConnection.getInputStream gives the same stream each time.
import java.io.*;
import java.net.*;

public final class Keeps {
    public static void main(String[] args) throws IOException {
        File made = File.createTempFile("known", ".tmp");
        made.deleteOnExit();
        URLConnection connection = made.toURI().toURL().openConnection();
        InputStream in = connection.getInputStream();
        System.out.println(in.read());
        connection.getInputStream().close();
    }
}
