// The address of a server is cast to InetSocketAddress to get its port.
import java.io.IOException;
import java.net.*;

public final class Keeps {
    public static void main(String[] args) throws IOException {
        ServerSocket server = new ServerSocket();
        server.bind(new InetSocketAddress("localhost", 0));
        int port = ((InetSocketAddress) server.getLocalSocketAddress()).getPort();
        Socket client = new Socket("localhost", port);
        client.getOutputStream().write(1);
        client.close();
    }
}
