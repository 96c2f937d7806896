import java.io.*;
import java.net.*;
import java.security.*;
import java.util.*;

/** Objects of a user around addresses, their connections, sockets and processes, and what makes these. */
class Connections {
    static class Opens extends URLStreamHandler implements Seen {
        protected URLConnection openConnection(URL to) throws IOException { new Hit("Connections$Opens openConnection(Ljava/net/URL;)Ljava/net/URLConnection;"); return new Line(to); }
        protected URLConnection openConnection(URL to, Proxy by) throws IOException {
            new Hit("Connections$Opens openConnection(Ljava/net/URL;Ljava/net/Proxy;)Ljava/net/URLConnection;");
            return new Line(to);
        }
        protected void parseURL(URL to, String text, int from, int end) { new Hit("Connections$Opens parseURL(Ljava/net/URL;Ljava/lang/String;II)V"); super.parseURL(to, text, from, end); }
        protected int getDefaultPort() { new Hit("Connections$Opens getDefaultPort()I"); return 7; }
        protected boolean equals(URL one, URL two) { new Hit("Connections$Opens equals(Ljava/net/URL;Ljava/net/URL;)Z"); return super.equals(one, two); }
        protected int hashCode(URL of) { new Hit("Connections$Opens hashCode(Ljava/net/URL;)I"); return 4; }
        protected boolean sameFile(URL one, URL two) { new Hit("Connections$Opens sameFile(Ljava/net/URL;Ljava/net/URL;)Z"); return super.sameFile(one, two); }
        protected boolean hostsEqual(URL one, URL two) { new Hit("Connections$Opens hostsEqual(Ljava/net/URL;Ljava/net/URL;)Z"); return true; }
        protected synchronized InetAddress getHostAddress(URL of) { new Hit("Connections$Opens getHostAddress(Ljava/net/URL;)Ljava/net/InetAddress;"); return null; }
        protected String toExternalForm(URL of) { new Hit("Connections$Opens toExternalForm(Ljava/net/URL;)Ljava/lang/String;"); return super.toExternalForm(of); }
        protected void setURL(URL to, String a, String b, int c, String d, String e, String f, String g, String h) {
            new Hit("Connections$Opens setURL(Ljava/net/URL;Ljava/lang/String;Ljava/lang/String;ILjava/lang/String;Ljava/lang/String;Ljava/lang/String;Ljava/lang/String;Ljava/lang/String;)V");
            super.setURL(to, a, b, c, d, e, f, g, h);
        }
        public void back() { new Hit("Connections$Opens back()V"); }
    }

    static class Line extends URLConnection implements Seen {
        Line(URL to) { super(to); }
        public void connect() throws IOException { new Hit("Connections$Line connect()V"); connected = true; }
        public InputStream getInputStream() throws IOException { new Hit("Connections$Line getInputStream()Ljava/io/InputStream;"); Data.at = 0; return new RecIn(); }
        public OutputStream getOutputStream() throws IOException { new Hit("Connections$Line getOutputStream()Ljava/io/OutputStream;"); return new RecOut(); }
        public String getHeaderField(String name) { new Hit("Connections$Line getHeaderField(Ljava/lang/String;)Ljava/lang/String;"); return "text/plain"; }
        public String getHeaderField(int at) { new Hit("Connections$Line getHeaderField(I)Ljava/lang/String;"); return null; }
        public String getHeaderFieldKey(int at) { new Hit("Connections$Line getHeaderFieldKey(I)Ljava/lang/String;"); return null; }
        public int getContentLength() { new Hit("Connections$Line getContentLength()I"); return super.getContentLength(); }
        public String getContentType() { new Hit("Connections$Line getContentType()Ljava/lang/String;"); return super.getContentType(); }
        public long getHeaderFieldDate(String name, long otherwise) { new Hit("Connections$Line getHeaderFieldDate(Ljava/lang/String;J)J"); return super.getHeaderFieldDate(name, otherwise); }
        public long getHeaderFieldLong(String name, long otherwise) { new Hit("Connections$Line getHeaderFieldLong(Ljava/lang/String;J)J"); return super.getHeaderFieldLong(name, otherwise); }
        public int getHeaderFieldInt(String name, int otherwise) { new Hit("Connections$Line getHeaderFieldInt(Ljava/lang/String;I)I"); return super.getHeaderFieldInt(name, otherwise); }
        public long getContentLengthLong() { new Hit("Connections$Line getContentLengthLong()J"); return super.getContentLengthLong(); }
        public URL getURL() { new Hit("Connections$Line getURL()Ljava/net/URL;"); return super.getURL(); }
        public Object getContent() throws IOException { new Hit("Connections$Line getContent()Ljava/lang/Object;"); return super.getContent(); }
        public void back() { new Hit("Connections$Line back()V"); }
    }

    static class Web extends HttpURLConnection implements Seen {
        Web(URL to) { super(to); }
        public void connect() throws IOException { new Hit("Connections$Web connect()V"); }
        public void disconnect() { new Hit("Connections$Web disconnect()V"); }
        public boolean usingProxy() { new Hit("Connections$Web usingProxy()Z"); return false; }
        public InputStream getInputStream() throws IOException { new Hit("Connections$Web getInputStream()Ljava/io/InputStream;"); Data.at = 0; return new RecIn(); }
        public String getHeaderField(int at) { new Hit("Connections$Web getHeaderField(I)Ljava/lang/String;"); return "HTTP/1.1 200 OK"; }
        public String getHeaderField(String name) { new Hit("Connections$Web getHeaderField(Ljava/lang/String;)Ljava/lang/String;"); return null; }
        public int getResponseCode() throws IOException { new Hit("Connections$Web getResponseCode()I"); return super.getResponseCode(); }
        public long getHeaderFieldDate(String name, long otherwise) { new Hit("Connections$Web getHeaderFieldDate(Ljava/lang/String;J)J"); return super.getHeaderFieldDate(name, otherwise); }
        public void back() { new Hit("Connections$Web back()V"); }
    }

    static class Makes implements URLStreamHandlerFactory, Seen {
        public URLStreamHandler createURLStreamHandler(String name) {
            new Hit("Connections$Makes createURLStreamHandler(Ljava/lang/String;)Ljava/net/URLStreamHandler;");
            return name.equals("rec") ? new Opens() : null;
        }
        public void back() { new Hit("Connections$Makes back()V"); }
    }

    static class Plug extends SocketImpl implements Seen {
        protected void create(boolean stream) throws IOException { new Hit("Connections$Plug create(Z)V"); }
        protected void connect(String host, int port) throws IOException { new Hit("Connections$Plug connect(Ljava/lang/String;I)V"); }
        protected void connect(InetAddress to, int port) throws IOException { new Hit("Connections$Plug connect(Ljava/net/InetAddress;I)V"); }
        protected void connect(SocketAddress to, int time) throws IOException { new Hit("Connections$Plug connect(Ljava/net/SocketAddress;I)V"); }
        protected void bind(InetAddress at, int port) throws IOException { new Hit("Connections$Plug bind(Ljava/net/InetAddress;I)V"); }
        protected void listen(int count) throws IOException { new Hit("Connections$Plug listen(I)V"); }
        protected void accept(SocketImpl other) throws IOException { new Hit("Connections$Plug accept(Ljava/net/SocketImpl;)V"); }
        protected InputStream getInputStream() throws IOException { new Hit("Connections$Plug getInputStream()Ljava/io/InputStream;"); Data.at = 0; return new RecIn(); }
        protected OutputStream getOutputStream() throws IOException { new Hit("Connections$Plug getOutputStream()Ljava/io/OutputStream;"); return new RecOut(); }
        protected int available() throws IOException { new Hit("Connections$Plug available()I"); return 0; }
        protected void close() throws IOException { new Hit("Connections$Plug close()V"); }
        protected void shutdownInput() throws IOException { new Hit("Connections$Plug shutdownInput()V"); }
        protected void shutdownOutput() throws IOException { new Hit("Connections$Plug shutdownOutput()V"); }
        protected void sendUrgentData(int data) throws IOException { new Hit("Connections$Plug sendUrgentData(I)V"); }
        protected boolean supportsUrgentData() { new Hit("Connections$Plug supportsUrgentData()Z"); return true; }
        protected InetAddress getInetAddress() { new Hit("Connections$Plug getInetAddress()Ljava/net/InetAddress;"); return super.getInetAddress(); }
        protected int getPort() { new Hit("Connections$Plug getPort()I"); return 5; }
        protected int getLocalPort() { new Hit("Connections$Plug getLocalPort()I"); return 5; }
        public void setOption(int name, Object value) throws SocketException { new Hit("Connections$Plug setOption(ILjava/lang/Object;)V"); }
        public Object getOption(int name) throws SocketException { new Hit("Connections$Plug getOption(I)Ljava/lang/Object;"); return Integer.valueOf(1); }
        public String toString() { new Hit("Connections$Plug toString()Ljava/lang/String;"); return "plug"; }
        public void back() { new Hit("Connections$Plug back()V"); }
    }

    static class Wire extends Socket implements Seen {
        Wire(SocketImpl plug) throws SocketException { super(plug); }
        Wire() { super(); }
        public synchronized void close() throws IOException { new Hit("Connections$Wire close()V"); super.close(); }
        public InputStream getInputStream() throws IOException { new Hit("Connections$Wire getInputStream()Ljava/io/InputStream;"); return super.getInputStream(); }
        public boolean isClosed() { new Hit("Connections$Wire isClosed()Z"); return super.isClosed(); }
        public boolean isConnected() { new Hit("Connections$Wire isConnected()Z"); return super.isConnected(); }
        public boolean isBound() { new Hit("Connections$Wire isBound()Z"); return super.isBound(); }
        public void back() { new Hit("Connections$Wire back()V"); }
    }

    static class Server extends ServerSocket implements Seen {
        Server() throws IOException { super(0, 5, InetAddress.getByName("127.0.0.1")); }
        public Socket accept() throws IOException { new Hit("Connections$Server accept()Ljava/net/Socket;"); Wire made = new Wire(); implAccept(made); return made; }
        public void close() throws IOException { new Hit("Connections$Server close()V"); super.close(); }
        public boolean isClosed() { new Hit("Connections$Server isClosed()Z"); return super.isClosed(); }
        public boolean isBound() { new Hit("Connections$Server isBound()Z"); return super.isBound(); }
        public int getLocalPort() { new Hit("Connections$Server getLocalPort()I"); return super.getLocalPort(); }
        public void back() { new Hit("Connections$Server back()V"); }
    }

    /** The words of a command. */
    static class Words extends AbstractList<String> implements Seen {
        private final String[] all;
        Words(String... all) { this.all = all; }
        public String get(int at) { new Hit("Connections$Words get(I)Ljava/lang/String;"); return all[at]; }
        public int size() { new Hit("Connections$Words size()I"); return all.length; }
        public Iterator<String> iterator() { new Hit("Connections$Words iterator()Ljava/util/Iterator;"); return super.iterator(); }
        public Object[] toArray() { new Hit("Connections$Words toArray()[Ljava/lang/Object;"); return super.toArray(); }
        public <T> T[] toArray(T[] to) { new Hit("Connections$Words toArray([Ljava/lang/Object;)[Ljava/lang/Object;"); return super.toArray(to); }
        public void back() { new Hit("Connections$Words back()V"); }
    }

    static class Folder extends File implements Seen {
        Folder() { super("."); }
        public String getPath() { new Hit("Connections$Folder getPath()Ljava/lang/String;"); return super.getPath(); }
        public String toString() { new Hit("Connections$Folder toString()Ljava/lang/String;"); return super.toString(); }
        public boolean exists() { new Hit("Connections$Folder exists()Z"); return super.exists(); }
        public void back() { new Hit("Connections$Folder back()V"); }
    }

    static URL url() throws IOException { return new URL("rec", "localhost", 7, "/f", new Opens()); }
    static URL other() throws IOException { return new URL((URL) null, "rec://localhost/f#g", new Opens()); }
    static URL web() throws IOException { return new URL("http://localhost:1/f"); }
    static URLStreamHandler opens() { return new Opens(); }
    static URLConnection line() throws IOException { return url().openConnection(); }
    static HttpURLConnection httpLine() throws IOException { return new Web(web()); }
    static SocketImpl plug() { return new Plug(); }
    static Socket wire() throws IOException { Wire all = new Wire(new Plug()); all.connect(new InetSocketAddress("127.0.0.1", 1)); return all; }
    static Socket open() throws IOException { return new Wire(new Plug()); }
    static ServerSocket server() throws IOException { return new Server(); }
    static InetAddress address() throws IOException { return InetAddress.getByName("127.0.0.1"); }
    static SocketAddress end() { return new InetSocketAddress("127.0.0.1", 1); }
    static Proxy proxy() { return Proxy.NO_PROXY; }
    static ProcessBuilder words() { return new ProcessBuilder(new Words("/bin/true")); }
    static ProcessBuilder echo() { return new ProcessBuilder("/bin/echo", "x").directory(new Folder()); }
    static Process process() throws IOException { return words().start(); }
    static Runtime runtime() { return Runtime.getRuntime(); }
    static File folder() { return new Folder(); }
    static List<String> list() { return new Words("/bin/true", "x"); }
    static InputStream in() { Data.at = 0; return new RecIn(); }

    static void moreProcesses() throws Exception {
        ProcessBuilder all = new ProcessBuilder(new Words("/bin/cat")).directory(new Folder());
        all.environment().put("A", "b");
        Process one = all.start();
        one.getOutputStream().write(1);
        one.getOutputStream().close();
        one.getInputStream().read();
        one.waitFor();
        one.destroy();
        Runtime.getRuntime().exec("/bin/true").waitFor();
        Log.back(all.command());
        Log.back(all.directory());
    }

    static void moreFactories() throws Exception {
        URL.setURLStreamHandlerFactory(new Makes());
        URL all = new URL("rec://localhost/f");
        Log.back(all.openConnection());
        InputStream in = all.openStream();
        Log.back(in);
        in.close();
        all.hashCode();
        all.equals(new URL("rec://localhost/g"));
        all.toString();
        all.toURI();
    }

    static void moreContents() throws Exception {
        Log.back(url().getContent());
        Line all = new Line(url());
        all.getLastModified();
        all.getContentLength();
        all.getContentEncoding();
        all.getContent();
        all.toString();
        all.getHeaderFields();
        URLConnection.guessContentTypeFromStream(new RecIn());
        Web web = new Web(web());
        web.getResponseMessage();
        web.getErrorStream();
        web.getHeaderFieldDate("x", 1);
        web.getPermission();
        web.getContent();
    }

    static void moreSockets() throws Exception {
        Server all = new Server();
        Socket one = new Socket("127.0.0.1", all.getLocalPort());
        Socket two = all.accept();
        Log.back(two);
        two.getOutputStream().write(1);
        two.shutdownOutput();
        one.getInputStream().read();
        two.close();
        one.close();
        all.toString();
        all.close();
    }

    static void morePlugs() throws Exception {
        Socket all = wire();
        Log.back(all.getInputStream());
        all.getOutputStream().write(1);
        all.setTcpNoDelay(true);
        all.getSoTimeout();
        all.sendUrgentData(1);
        all.toString();
        all.shutdownInput();
        all.shutdownOutput();
        all.getOutputStream().close();
        all.close();
    }
}
