package java.net;

import java.io.IOException;
import java.io.InputStream;
import java.io.OutputStream;
import java.security.Permission;
import java.util.List;
import java.util.Map;
import library.Library;

/**
 * A connection to a resource. Its streams are the same at each call, and its content may be its stream. Many methods ask for header fields
 * by methods that a class of the program may override.
 */
public abstract class URLConnection {
    protected URL url;
    protected boolean doInput;
    protected boolean doOutput;
    protected boolean allowUserInteraction;
    protected boolean useCaches;
    protected long ifModifiedSince;
    protected boolean connected;
    InputStream in;
    OutputStream out;

    protected URLConnection(URL url) {
        this.url = url;
    }

    /** Calls what the program may have set for all connections: who knows passwords, proxies and cookies. */
    static void consult() throws IOException {
        Object set = Library.kept();
        if (set instanceof Authenticator && Library.any()) {
            ((Authenticator) set).getPasswordAuthentication();
        }
        if (set instanceof ProxySelector && Library.any()) {
            ((ProxySelector) set).select(null);
            ((ProxySelector) set).connectFailed(null, null, null);
        }
        if (set instanceof CookieHandler && Library.any()) {
            ((CookieHandler) set).get(null, fields());
            ((CookieHandler) set).put(null, fields());
        }
    }

    /** A map of texts. */
    static native Map<String, List<String>> fields();

    /** What of files is known by their names, which may be the program's. */
    public static synchronized FileNameMap getFileNameMap() {
        Object set = Library.kept();
        return set instanceof FileNameMap && Library.any() ? (FileNameMap) set : names();
    }

    private static native FileNameMap names();

    public static void setFileNameMap(FileNameMap map) {
        Library.keep(map);
    }

    public abstract void connect() throws IOException;

    public void setConnectTimeout(int timeout) {
        Library.any();
    }

    public int getConnectTimeout() {
        return Library.number();
    }

    public void setReadTimeout(int timeout) {
        Library.any();
    }

    public int getReadTimeout() {
        return Library.number();
    }

    public URL getURL() {
        if (url == null) {
            url = found();
        }
        return url;
    }

    private static native URL found();

    public int getContentLength() {
        getContentLengthLong();
        return Library.number();
    }

    public long getContentLengthLong() {
        return getHeaderFieldLong(Library.text(), Library.number());
    }

    public String getContentType() {
        return getHeaderField(Library.text());
    }

    public String getContentEncoding() {
        return getHeaderField(Library.text());
    }

    public long getExpiration() {
        return getHeaderFieldDate(Library.text(), Library.number());
    }

    public long getDate() {
        return getHeaderFieldDate(Library.text(), Library.number());
    }

    public long getLastModified() {
        return getHeaderFieldDate(Library.text(), Library.number());
    }

    public String getHeaderField(String name) {
        return field();
    }

    public Map<String, List<String>> getHeaderFields() {
        field();
        return fields();
    }

    public int getHeaderFieldInt(String name, int otherwise) {
        getHeaderField(name);
        return Library.number();
    }

    public long getHeaderFieldLong(String name, long otherwise) {
        getHeaderField(name);
        return Library.number();
    }

    public long getHeaderFieldDate(String name, long otherwise) {
        getHeaderField(name);
        return Library.number();
    }

    public String getHeaderFieldKey(int n) {
        return field();
    }

    public String getHeaderField(int n) {
        return field();
    }

    /** A field of the header, for which a connection of the library is made first. */
    private String field() {
        try {
            if (Library.any()) {
                consult();
            }
            if (Library.any()) {
                connect();
            }
            if (Library.any()) {
                getInputStream();
            }
        } catch (IOException fault) {
            return null;
        }
        return Library.any() ? null : Library.text();
    }

    public Object getContent() throws IOException {
        return gotten(null);
    }

    @SuppressWarnings("rawtypes")
    public Object getContent(Class[] classes) throws IOException {
        return gotten(classes);
    }

    /** The content: that of a handler which the program's factory makes, the stream, or an object of the library's own. */
    @SuppressWarnings("rawtypes")
    private Object gotten(Class[] classes) throws IOException {
        InputStream stream = getInputStream();
        getContentType();
        Object set = Library.kept();
        if (set instanceof ContentHandlerFactory && Library.any()) {
            ContentHandler handler = ((ContentHandlerFactory) set).createContentHandler(Library.text());
            if (handler != null) {
                Library.keep(handler);
                set = handler;
            }
        }
        if (set instanceof ContentHandler && Library.any()) {
            ContentHandler handler = (ContentHandler) set;
            return classes == null ? handler.getContent(this) : handler.getContent(this, classes);
        }
        if (stream != null && Library.any()) {
            stream.read();
            stream.read(new byte[Library.number()], 0, Library.number());
        }
        if (stream != null && Library.any()) {
            stream.close();
        }
        return Library.any() ? stream : content();
    }

    private native Object content();

    public Permission getPermission() throws IOException {
        Library.mayFail();
        return permission();
    }

    private native Permission permission();

    public InputStream getInputStream() throws IOException {
        Library.mayFail();
        if (Library.any()) {
            consult();
        }
        if (Library.any()) {
            connect();
        }
        if (in == null) {
            in = input();
        }
        return in;
    }

    private native InputStream input();

    public OutputStream getOutputStream() throws IOException {
        Library.mayFail();
        if (Library.any()) {
            consult();
        }
        if (Library.any()) {
            connect();
        }
        if (out == null) {
            out = output();
        }
        return out;
    }

    private native OutputStream output();

    public String toString() {
        return url == null || Library.any() ? Library.text() : url.toString();
    }

    public void setDoInput(boolean doinput) {
        Library.any();
        doInput = doinput;
    }

    public boolean getDoInput() {
        return Library.any();
    }

    public void setDoOutput(boolean dooutput) {
        Library.any();
        doOutput = dooutput;
    }

    public boolean getDoOutput() {
        return Library.any();
    }

    public void setAllowUserInteraction(boolean allow) {
        Library.any();
        allowUserInteraction = allow;
    }

    public boolean getAllowUserInteraction() {
        return Library.any();
    }

    public static void setDefaultAllowUserInteraction(boolean allow) {
    }

    public static boolean getDefaultAllowUserInteraction() {
        return Library.any();
    }

    public void setUseCaches(boolean use) {
        Library.any();
        useCaches = use;
    }

    public boolean getUseCaches() {
        return Library.any();
    }

    public void setIfModifiedSince(long since) {
        Library.any();
        ifModifiedSince = since;
    }

    public long getIfModifiedSince() {
        return Library.number();
    }

    public boolean getDefaultUseCaches() {
        return Library.any();
    }

    public void setDefaultUseCaches(boolean use) {
    }

    public void setRequestProperty(String key, String value) {
        Library.any();
    }

    public void addRequestProperty(String key, String value) {
        Library.any();
    }

    public String getRequestProperty(String key) {
        return Library.any() ? null : Library.text();
    }

    public Map<String, List<String>> getRequestProperties() {
        Library.any();
        return fields();
    }

    @Deprecated
    public static void setDefaultRequestProperty(String key, String value) {
    }

    @Deprecated
    public static String getDefaultRequestProperty(String key) {
        return null;
    }

    public static synchronized void setContentHandlerFactory(ContentHandlerFactory fac) {
        Library.any();
        Library.keep(fac);
    }

    public static String guessContentTypeFromName(String name) {
        return getFileNameMap().getContentTypeFor(name);
    }

    public static String guessContentTypeFromStream(InputStream is) throws IOException {
        if (is.markSupported() || Library.any()) {
            is.mark(Library.number());
            while (Library.any()) {
                is.read();
                is.read(new byte[Library.number()], 0, Library.number());
            }
            is.reset();
        }
        return Library.any() ? null : Library.text();
    }
}
