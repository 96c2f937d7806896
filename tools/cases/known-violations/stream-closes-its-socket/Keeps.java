// Closing a stream of a socket closes the socket (the call is the library's).
import java.io.*;
import java.net.*;

public final class Keeps {
    public static void main(String[] args) throws IOException {
        ServerSocket server = new ServerSocket(0);
        Socket client = new Socket("localhost", server.getLocalPort());
        InputStream in = client.getInputStream();
        client.getOutputStream().write(65);
        in.close();
    }
}
