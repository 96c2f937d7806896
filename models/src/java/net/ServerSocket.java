package java.net;

import java.io.Closeable;
import java.io.IOException;
import java.nio.channels.ServerSocketChannel;
import library.Library;

/**
 * Waits for connections. What the program has for the work of sockets is called when it is set, and not later. A channel that a server
 * socket has may be any one that was kept.
 */
public class ServerSocket implements Closeable {
    private Held held;

    public ServerSocket() throws IOException {
        Library.mayFail();
    }

    public ServerSocket(int port) throws IOException {
        begin();
    }

    public ServerSocket(int port, int backlog) throws IOException {
        begin();
    }

    public ServerSocket(int port, int backlog, InetAddress bindAddr) throws IOException {
        begin();
    }

    private static native SocketAddress address();

    private static native void mayFail() throws SocketException;

    /** Binds, and closes where that fails. */
    private void begin() throws IOException {
        try {
            Library.mayFail();
            bind(address(), Library.number());
        } catch (IOException fault) {
            if (Library.any()) {
                close();
            }
            throw fault;
        }
    }

    public void bind(SocketAddress endpoint) throws IOException {
        bind(endpoint, Library.number());
    }

    public void bind(SocketAddress endpoint, int backlog) throws IOException {
        Library.mayFail();
    }

    public native InetAddress getInetAddress();

    public int getLocalPort() {
        return Library.number();
    }

    public native SocketAddress getLocalSocketAddress();

    public native Socket accept() throws IOException;

    protected final void implAccept(Socket s) throws IOException {
        Library.mayFail();
        if (s != null && Library.any()) {
            s.close();
        }
    }

    public void close() throws IOException {
        Library.mayFail();
        if (held != null && Library.any()) {
            held.close();
        }
    }

    public ServerSocketChannel getChannel() {
        if (held == null) {
            Object kept = Library.kept();
            held = new Held(kept instanceof ServerSocketChannel && Library.any() ? (ServerSocketChannel) kept : channel());
        }
        return held.channel;
    }

    private native ServerSocketChannel channel();

    public boolean isBound() {
        return Library.any();
    }

    public boolean isClosed() {
        return Library.any();
    }

    public synchronized void setSoTimeout(int timeout) throws SocketException {
        mayFail();
    }

    public synchronized int getSoTimeout() throws IOException {
        Library.mayFail();
        return Library.number();
    }

    public void setReuseAddress(boolean on) throws SocketException {
        mayFail();
    }

    public boolean getReuseAddress() throws SocketException {
        mayFail();
        return Library.any();
    }

    public String toString() {
        return Library.text();
    }

    public static synchronized void setSocketFactory(SocketImplFactory fac) throws IOException {
        Library.mayFail();
        Library.keep(fac);
        if (fac != null) {
            SocketImpl impl = fac.createSocketImpl();
            while (impl != null && Library.any()) {
                Socket.Work.all(impl);
            }
        }
    }

    public synchronized void setReceiveBufferSize(int size) throws SocketException {
        mayFail();
    }

    public synchronized int getReceiveBufferSize() throws SocketException {
        mayFail();
        return Library.number();
    }

    public void setPerformancePreferences(int connectionTime, int latency, int bandwidth) {
    }

    /** The channel that was asked for. It stands in an object of its own, so that nothing is closed where none was. */
    private static final class Held {
        final ServerSocketChannel channel;

        Held(ServerSocketChannel channel) {
            this.channel = channel;
        }

        void close() throws IOException {
            if (channel != null) {
                channel.close();
            }
        }
    }
}
