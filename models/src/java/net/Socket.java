package java.net;

import java.io.Closeable;
import java.io.IOException;
import java.io.InputStream;
import java.io.OutputStream;
import java.nio.channels.SocketChannel;
import library.Library;
import library.SocketIn;
import library.SocketOut;

/**
 * A connection of two machines. Its streams are the same at each call; to close one closes the socket, and the socket closes its streams.
 * What does its work may be the program's. A channel that it has may be any one that was kept.
 */
public class Socket implements Closeable {
    private SocketImpl impl;
    private InputStream in;
    private OutputStream out;
    private Held held;

    public Socket() {
        work();
    }

    public Socket(Proxy proxy) {
        Library.any();
    }

    protected Socket(SocketImpl impl) throws SocketException {
        mayFail();
        this.impl = impl;
    }

    public Socket(String host, int port) throws UnknownHostException, IOException {
        begin();
    }

    public Socket(InetAddress address, int port) throws IOException {
        begin();
    }

    public Socket(String host, int port, InetAddress localAddr, int localPort) throws IOException {
        bind(address());
        begin();
    }

    public Socket(InetAddress address, int port, InetAddress localAddr, int localPort) throws IOException {
        bind(address());
        begin();
    }

    @Deprecated
    public Socket(String host, int port, boolean stream) throws IOException {
        begin();
    }

    @Deprecated
    public Socket(InetAddress host, int port, boolean stream) throws IOException {
        begin();
    }

    private static native void mayFail() throws SocketException;

    private static native SocketAddress address();

    /** Connects, and closes where that fails. */
    private void begin() throws IOException {
        try {
            Library.mayFail();
            connect(address());
        } catch (IOException fault) {
            if (Library.any()) {
                close();
            }
            throw fault;
        }
    }

    /** What the program has for the work of sockets, if it has something: it may do anything then. */
    private void work() {
        try {
            Object kept = Library.kept();
            if (impl == null && kept instanceof SocketImplFactory) {
                impl = ((SocketImplFactory) kept).createSocketImpl();
            }
            while (impl != null && Library.any()) {
                Work.all(impl);
            }
        } catch (IOException fault) {
            Library.any();
        }
    }

    public void connect(SocketAddress endpoint) throws IOException {
        reach();
    }

    public void connect(SocketAddress endpoint, int timeout) throws IOException {
        reach();
    }

    private void reach() throws IOException {
        Library.mayFail();
        work();
        if (Library.any()) {
            URLConnection.consult();
        }
    }

    public void bind(SocketAddress bindpoint) throws IOException {
        Library.mayFail();
        work();
    }

    public native InetAddress getInetAddress();

    public native InetAddress getLocalAddress();

    public int getPort() {
        work();
        return Library.number();
    }

    public int getLocalPort() {
        work();
        return Library.number();
    }

    public native SocketAddress getRemoteSocketAddress();

    public native SocketAddress getLocalSocketAddress();

    public SocketChannel getChannel() {
        if (held == null) {
            Object kept = Library.kept();
            held = new Held(kept instanceof SocketChannel && Library.any() ? (SocketChannel) kept : channel());
        }
        return held.channel;
    }

    private native SocketChannel channel();

    public InputStream getInputStream() throws IOException {
        Library.mayFail();
        work();
        if (in == null) {
            InputStream own = impl == null ? null : impl.getInputStream();
            in = own != null && Library.any() ? own : Library.any() ? new SocketIn(this, own) : input();
        }
        return in;
    }

    /** A stream of another class. */
    private native InputStream input();

    public OutputStream getOutputStream() throws IOException {
        Library.mayFail();
        work();
        if (out == null) {
            OutputStream own = impl == null ? null : impl.getOutputStream();
            out = own != null && Library.any() ? own : Library.any() ? new SocketOut(this, own) : output();
        }
        return out;
    }

    private native OutputStream output();

    public void setTcpNoDelay(boolean value) throws SocketException {
        mayFail();
        work();
    }

    public boolean getTcpNoDelay() throws SocketException {
        mayFail();
        work();
        return Library.any();
    }

    public void setSoLinger(boolean on, int linger) throws SocketException {
        mayFail();
        work();
    }

    public int getSoLinger() throws SocketException {
        mayFail();
        work();
        return Library.number();
    }

    public void sendUrgentData(int data) throws IOException {
        Library.mayFail();
        work();
    }

    public void setOOBInline(boolean value) throws SocketException {
        mayFail();
        work();
    }

    public boolean getOOBInline() throws SocketException {
        mayFail();
        work();
        return Library.any();
    }

    public synchronized void setSoTimeout(int value) throws SocketException {
        mayFail();
        work();
    }

    public synchronized int getSoTimeout() throws SocketException {
        mayFail();
        work();
        return Library.number();
    }

    public synchronized void setSendBufferSize(int value) throws SocketException {
        mayFail();
        work();
    }

    public synchronized int getSendBufferSize() throws SocketException {
        mayFail();
        work();
        return Library.number();
    }

    public synchronized void setReceiveBufferSize(int value) throws SocketException {
        mayFail();
        work();
    }

    public synchronized int getReceiveBufferSize() throws SocketException {
        mayFail();
        work();
        return Library.number();
    }

    public void setKeepAlive(boolean value) throws SocketException {
        mayFail();
        work();
    }

    public boolean getKeepAlive() throws SocketException {
        mayFail();
        work();
        return Library.any();
    }

    public void setTrafficClass(int value) throws SocketException {
        mayFail();
        work();
    }

    public int getTrafficClass() throws SocketException {
        mayFail();
        work();
        return Library.number();
    }

    public void setReuseAddress(boolean value) throws SocketException {
        mayFail();
        work();
    }

    public boolean getReuseAddress() throws SocketException {
        mayFail();
        work();
        return Library.any();
    }

    public synchronized void close() throws IOException {
        Library.mayFail();
        work();
        if (in != null && Library.any()) {
            in.close();
        }
        if (out != null && Library.any()) {
            out.close();
        }
        if (held != null && Library.any()) {
            held.close();
        }
    }

    public void shutdownInput() throws IOException {
        Library.mayFail();
        work();
    }

    public void shutdownOutput() throws IOException {
        Library.mayFail();
        work();
    }

    public String toString() {
        return Library.text();
    }

    public boolean isConnected() {
        return Library.any();
    }

    public boolean isBound() {
        return Library.any();
    }

    public boolean isClosed() {
        return Library.any();
    }

    public boolean isInputShutdown() {
        return Library.any();
    }

    public boolean isOutputShutdown() {
        return Library.any();
    }

    public static synchronized void setSocketImplFactory(SocketImplFactory fac) throws IOException {
        Library.mayFail();
        Library.keep(fac);
    }

    public void setPerformancePreferences(int connectionTime, int latency, int bandwidth) {
    }

    /** What is called of that which does the work of sockets, where the program has it. */
    static final class Work {
        private Work() {
        }

        static void all(SocketImpl impl) throws IOException {
            impl.create(Library.any());
            impl.connect(Library.text(), Library.number());
            impl.connect((InetAddress) null, Library.number());
            impl.connect((SocketAddress) null, Library.number());
            impl.bind(null, Library.number());
            impl.listen(Library.number());
            impl.accept(impl);
            impl.getInputStream();
            impl.getOutputStream();
            impl.available();
            impl.shutdownInput();
            impl.shutdownOutput();
            impl.getFileDescriptor();
            impl.getInetAddress();
            impl.getPort();
            impl.getLocalPort();
            impl.supportsUrgentData();
            impl.sendUrgentData(Library.number());
            impl.setPerformancePreferences(Library.number(), Library.number(), Library.number());
            impl.setOption(Library.number(), null);
            impl.getOption(Library.number());
            impl.close();
        }
    }

    /** The channel that was asked for. It stands in an object of its own, so that nothing is closed where none was. */
    private static final class Held {
        final SocketChannel channel;

        Held(SocketChannel channel) {
            this.channel = channel;
        }

        void close() throws IOException {
            if (channel != null) {
                channel.close();
            }
        }
    }
}
