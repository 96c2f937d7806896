package library;

import java.io.IOException;
import java.io.InputStream;
import java.net.Socket;

/** The stream that reads from a socket, and closes it when it is closed; it may wrap one that does the work. */
public final class SocketIn extends InputStream {
    private final Socket socket;
    private final InputStream work;

    public SocketIn(Socket socket, InputStream work) {
        this.socket = socket;
        this.work = work;
    }

    @Override
    public int read() throws IOException {
        return take();
    }

    @Override
    public int read(byte[] into) throws IOException {
        return take();
    }

    @Override
    public int read(byte[] into, int from, int count) throws IOException {
        return take();
    }

    private int take() throws IOException {
        Library.mayFail();
        if (work != null && Library.any()) {
            work.read();
        }
        if (work != null && Library.any()) {
            work.read(new byte[Library.number()], 0, Library.number());
        }
        return Library.number();
    }

    @Override
    public long skip(long count) throws IOException {
        if (work != null && Library.any()) {
            work.skip(count);
        }
        return take();
    }

    @Override
    public int available() throws IOException {
        Library.mayFail();
        return work == null || Library.any() ? Library.number() : work.available();
    }

    @Override
    public void close() throws IOException {
        Library.mayFail();
        if (work != null && Library.any()) {
            work.close();
        }
        if (socket != null && Library.any()) {
            socket.close();
        }
    }
}
