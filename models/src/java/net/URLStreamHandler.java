package java.net;

import java.io.IOException;
import library.Library;

/** Opens the connections of URLs. Its methods call one another, since a class of the program may override each. */
public abstract class URLStreamHandler {
    protected abstract URLConnection openConnection(URL u) throws IOException;

    protected URLConnection openConnection(URL u, Proxy p) throws IOException {
        throw new UnsupportedOperationException();
    }

    protected void parseURL(URL u, String spec, int start, int limit) {
        Library.any();
        if (Library.any()) {
            String part = Library.text();
            setURL(u, part, part, Library.number(), part, part, part, part, part);
        }
    }

    protected int getDefaultPort() {
        return Library.number();
    }

    protected boolean equals(URL u1, URL u2) {
        return sameFile(u1, u2) || Library.any();
    }

    protected int hashCode(URL u) {
        getHostAddress(u);
        getDefaultPort();
        return Library.number();
    }

    protected boolean sameFile(URL u1, URL u2) {
        if (u1 != null) {
            u1.getDefaultPort();
        }
        if (u2 != null) {
            u2.getDefaultPort();
        }
        hostsEqual(u1, u2);
        return Library.any();
    }

    protected synchronized InetAddress getHostAddress(URL u) {
        return address();
    }

    private native InetAddress address();

    protected boolean hostsEqual(URL u1, URL u2) {
        getHostAddress(u1);
        getHostAddress(u2);
        return Library.any();
    }

    protected String toExternalForm(URL u) {
        return Library.text();
    }

    protected void setURL(URL u, String protocol, String host, int port, String authority, String userInfo, String path, String query, String ref) {
        Library.any();
    }

    @Deprecated
    protected void setURL(URL u, String protocol, String host, int port, String file, String ref) {
        setURL(u, protocol, host, port, Library.text(), Library.text(), file, Library.text(), ref);
    }

    /** As that of java.lang.Object. */
    @Override
    public String toString() {
        hashCode();
        return Library.text();
    }
}
