// Socket.getInputStream gives the same stream each time.
import java.io.*;
import java.net.*;

public final class Keeps {
    public static void main(String[] args) throws IOException {
        ServerSocket server = new ServerSocket(0);
        Socket client = new Socket("localhost", server.getLocalPort());
        Socket peer = server.accept();
        peer.getOutputStream().write(65);
        InputStream one = client.getInputStream();
        InputStream other = client.getInputStream();
        System.out.println(other.read());
        one.close();
    }
}
