package library;

import java.io.IOException;
import java.io.OutputStream;
import java.net.Socket;

/** The stream that writes to a socket, and closes it when it is closed; it may wrap one that does the work. */
public final class SocketOut extends OutputStream {
    private final Socket socket;
    private final OutputStream work;

    public SocketOut(Socket socket, OutputStream work) {
        this.socket = socket;
        this.work = work;
    }

    @Override
    public void write(int one) throws IOException {
        give();
    }

    @Override
    public void write(byte[] from) throws IOException {
        give();
    }

    @Override
    public void write(byte[] from, int start, int count) throws IOException {
        give();
    }

    private void give() throws IOException {
        Library.mayFail();
        if (work != null && Library.any()) {
            work.write(Library.number());
        }
        if (work != null && Library.any()) {
            work.write(new byte[Library.number()], 0, Library.number());
        }
    }

    @Override
    public void flush() throws IOException {
        Library.mayFail();
        if (work != null && Library.any()) {
            work.flush();
        }
    }

    @Override
    public void close() throws IOException {
        Library.mayFail();
        if (work != null && Library.any()) {
            work.close();
        }
        if (socket != null && Library.any()) {
            socket.close();
        }
    }
}
