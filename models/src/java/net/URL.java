package java.net;

import java.io.IOException;
import java.io.InputStream;
import java.io.Serializable;
import library.Library;

/**
 * Names a resource, and opens connections to it by its handler, which may be one of the program or made by its factory; without one it
 * opens a connection of HTTP, or one of another kind. Its texts are the library's own.
 */
public final class URL implements Serializable {
    private transient URLStreamHandler handler;

    public URL(String protocol, String host, int port, String file) throws MalformedURLException {
        this(protocol, host, port, file, null);
    }

    public URL(String protocol, String host, String file) throws MalformedURLException {
        this(protocol, host, 0, file, null);
    }

    public URL(String protocol, String host, int port, String file, URLStreamHandler handler) throws MalformedURLException {
        mayFail();
        this.handler = handler;
    }

    public URL(String spec) throws MalformedURLException {
        this((URL) null, spec, null);
    }

    public URL(URL context, String spec) throws MalformedURLException {
        this(context, spec, null);
    }

    public URL(URL context, String spec, URLStreamHandler handler) throws MalformedURLException {
        mayFail();
        this.handler = handler;
        if (handler == null && context != null && Library.any()) {
            this.handler = context.handler();
        }
        URLStreamHandler parser = handler();
        if (parser != null && Library.any()) {
            parser.parseURL(this, spec, Library.number(), Library.number());
        }
    }

    private static native void mayFail() throws MalformedURLException;

    /** The handler: the one that was given, one of the program's factory, or null for one of the library. */
    private URLStreamHandler handler() {
        if (handler == null) {
            handler = own();
        }
        return handler;
    }

    /** A handler that the program's factory makes, or made. */
    private static URLStreamHandler own() {
        Object kept = Library.kept();
        if (kept instanceof URLStreamHandlerFactory && Library.any()) {
            URLStreamHandler made = ((URLStreamHandlerFactory) kept).createURLStreamHandler(Library.text());
            Library.keep(made);
            return made;
        }
        return kept instanceof URLStreamHandler && Library.any() ? (URLStreamHandler) kept : null;
    }

    public String getQuery() {
        return Library.any() ? null : Library.text();
    }

    public String getPath() {
        return Library.text();
    }

    public String getUserInfo() {
        return Library.any() ? null : Library.text();
    }

    public String getAuthority() {
        return Library.any() ? null : Library.text();
    }

    public int getPort() {
        return Library.number();
    }

    public int getDefaultPort() {
        return handler() == null || Library.any() ? Library.number() : handler.getDefaultPort();
    }

    public String getProtocol() {
        return Library.text();
    }

    public String getHost() {
        return Library.text();
    }

    public String getFile() {
        return Library.text();
    }

    public String getRef() {
        return Library.any() ? null : Library.text();
    }

    public boolean equals(Object obj) {
        if (!(obj instanceof URL)) {
            return false;
        }
        return handler() == null || Library.any() ? Library.any() : handler.equals(this, (URL) obj);
    }

    public synchronized int hashCode() {
        return handler() == null || Library.any() ? Library.number() : handler.hashCode(this);
    }

    public boolean sameFile(URL other) {
        return handler() == null || Library.any() ? Library.any() : handler.sameFile(this, other);
    }

    public String toString() {
        return form();
    }

    public String toExternalForm() {
        return form();
    }

    private String form() {
        return handler() == null || Library.any() ? Library.text() : handler.toExternalForm(this);
    }

    public URI toURI() throws URISyntaxException {
        form();
        return uri();
    }

    private native URI uri() throws URISyntaxException;

    public URLConnection openConnection() throws IOException {
        return open();
    }

    private URLConnection open() throws IOException {
        Library.mayFail();
        if (handler() != null && Library.any()) {
            return handler.openConnection(this);
        }
        return made();
    }

    public URLConnection openConnection(Proxy proxy) throws IOException {
        Library.mayFail();
        if (handler() != null && Library.any()) {
            return handler.openConnection(this, proxy);
        }
        return made();
    }

    /** A connection of HTTP, or of another kind. */
    private URLConnection made() {
        if (Library.any()) {
            return new HttpURLConnection.Web(this);
        }
        URLConnection made = connection();
        if (made != null) {
            made.url = this;
        }
        return made;
    }

    private native URLConnection connection();

    public final InputStream openStream() throws IOException {
        return open().getInputStream();
    }

    public final Object getContent() throws IOException {
        return open().getContent();
    }

    @SuppressWarnings("rawtypes")
    public final Object getContent(Class[] classes) throws IOException {
        return open().getContent(classes);
    }

    public static void setURLStreamHandlerFactory(URLStreamHandlerFactory fac) {
        Library.any();
        Library.keep(fac);
    }
}
