import java.io.IOException;
import java.net.Socket;

/** Closes the socket once it was written to, and asks for its answer afterwards. */
public final class Breaks {
    private Breaks() {
    }

    private static int ask(String host) throws IOException {
        Socket socket = new Socket(host, 80);
        socket.getOutputStream().write('?');
        socket.close();
        return socket.getInputStream().read();
    }

    public static void main(String[] args) throws IOException {
        for (String host : args) {
            System.out.println(ask(host));
        }
    }
}
