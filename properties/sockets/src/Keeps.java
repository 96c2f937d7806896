import java.io.IOException;
import java.io.OutputStream;
import java.net.Socket;

/** Closes a socket of which no stream was taken, and writes to one that stays open until the program ends. */
public final class Keeps {
    private Keeps() {
    }

    private static boolean answers(String host) {
        try {
            Socket socket = new Socket(host, 80);
            socket.close();
            return true;
        } catch (IOException e) {
            return false;
        }
    }

    private static void greet(String host) throws IOException {
        Socket socket = new Socket(host, 80);
        OutputStream out = socket.getOutputStream();
        out.write('?');
        out.flush();
    }

    public static void main(String[] args) throws IOException {
        for (String host : args) {
            if (answers(host)) {
                greet(host);
            }
        }
    }
}
