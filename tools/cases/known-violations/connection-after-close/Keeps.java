// A socket is asked for a timeout after a method closed it on one of its ways.
import java.io.IOException;
import java.net.Socket;

public final class Keeps {
    static boolean ready(Socket socket, int tries) throws IOException {
        if (tries > 3) {
            socket.close();
            return false;
        }
        return true;
    }

    public static void main(String[] args) throws IOException {
        Socket socket = new Socket();
        socket.setSoTimeout(100);
        System.out.println(ready(socket, 4));
    }
}
