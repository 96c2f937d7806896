package java.net;

import java.io.IOException;
import java.io.InputStream;
import java.security.Permission;
import library.Library;

/** A connection of HTTP. */
public abstract class HttpURLConnection extends URLConnection {
    protected String method;
    protected int chunkLength;
    protected int fixedContentLength;
    protected long fixedContentLengthLong;
    protected int responseCode;
    protected String responseMessage;
    protected boolean instanceFollowRedirects;
    public static final int HTTP_OK = 200;
    public static final int HTTP_CREATED = 201;
    public static final int HTTP_ACCEPTED = 202;
    public static final int HTTP_NOT_AUTHORITATIVE = 203;
    public static final int HTTP_NO_CONTENT = 204;
    public static final int HTTP_RESET = 205;
    public static final int HTTP_PARTIAL = 206;
    public static final int HTTP_MULT_CHOICE = 300;
    public static final int HTTP_MOVED_PERM = 301;
    public static final int HTTP_MOVED_TEMP = 302;
    public static final int HTTP_SEE_OTHER = 303;
    public static final int HTTP_NOT_MODIFIED = 304;
    public static final int HTTP_USE_PROXY = 305;
    public static final int HTTP_BAD_REQUEST = 400;
    public static final int HTTP_UNAUTHORIZED = 401;
    public static final int HTTP_PAYMENT_REQUIRED = 402;
    public static final int HTTP_FORBIDDEN = 403;
    public static final int HTTP_NOT_FOUND = 404;
    public static final int HTTP_BAD_METHOD = 405;
    public static final int HTTP_NOT_ACCEPTABLE = 406;
    public static final int HTTP_PROXY_AUTH = 407;
    public static final int HTTP_CLIENT_TIMEOUT = 408;
    public static final int HTTP_CONFLICT = 409;
    public static final int HTTP_GONE = 410;
    public static final int HTTP_LENGTH_REQUIRED = 411;
    public static final int HTTP_PRECON_FAILED = 412;
    public static final int HTTP_ENTITY_TOO_LARGE = 413;
    public static final int HTTP_REQ_TOO_LONG = 414;
    public static final int HTTP_UNSUPPORTED_TYPE = 415;
    public static final int HTTP_SERVER_ERROR = 500;
    public static final int HTTP_INTERNAL_ERROR = 500;
    public static final int HTTP_NOT_IMPLEMENTED = 501;
    public static final int HTTP_BAD_GATEWAY = 502;
    public static final int HTTP_UNAVAILABLE = 503;
    public static final int HTTP_GATEWAY_TIMEOUT = 504;
    public static final int HTTP_VERSION = 505;
    private InputStream errors;

    protected HttpURLConnection(URL u) {
        super(u);
    }

    public String getHeaderFieldKey(int n) {
        return super.getHeaderFieldKey(n);
    }

    public void setFixedLengthStreamingMode(int contentLength) {
        Library.any();
    }

    public void setFixedLengthStreamingMode(long contentLength) {
        Library.any();
    }

    public void setChunkedStreamingMode(int chunklen) {
        Library.any();
    }

    public String getHeaderField(int n) {
        return super.getHeaderField(n);
    }

    public static void setFollowRedirects(boolean set) {
        Library.any();
    }

    public static boolean getFollowRedirects() {
        return Library.any();
    }

    public void setInstanceFollowRedirects(boolean follow) {
        instanceFollowRedirects = follow;
    }

    public boolean getInstanceFollowRedirects() {
        return Library.any();
    }

    public void setRequestMethod(String method) throws ProtocolException {
        mayRefuse();
        this.method = method;
    }

    private static native void mayRefuse() throws ProtocolException;

    public String getRequestMethod() {
        return method == null ? Library.text() : method;
    }

    public int getResponseCode() throws IOException {
        Library.mayFail();
        try {
            getInputStream();
        } catch (IOException fault) {
            if (Library.any()) {
                throw fault;
            }
        }
        getHeaderField(0);
        return Library.number();
    }

    public String getResponseMessage() throws IOException {
        getResponseCode();
        return responseMessage == null || Library.any() ? Library.text() : responseMessage;
    }

    public long getHeaderFieldDate(String name, long otherwise) {
        getHeaderField(name);
        return Library.number();
    }

    public abstract void disconnect();

    public abstract boolean usingProxy();

    public Permission getPermission() throws IOException {
        Library.mayFail();
        return permission();
    }

    private native Permission permission();

    /** The stream of an answer that tells of an error: it may be the one that the connection has for all answers. */
    public InputStream getErrorStream() {
        if (errors == null) {
            errors = in != null && Library.any() ? in : error();
        }
        return Library.any() ? null : errors;
    }

    private native InputStream error();

    /** A connection of the library's own, which may close its streams when it is disconnected. */
    static final class Web extends HttpURLConnection {
        Web(URL u) {
            super(u);
        }

        @Override
        public void connect() throws IOException {
            Library.mayFail();
            if (Library.any()) {
                consult();
            }
        }

        @Override
        public void disconnect() {
            try {
                if (in != null && Library.any()) {
                    in.close();
                }
                InputStream error = getErrorStream();
                if (error != null && Library.any()) {
                    error.close();
                }
                if (out != null && Library.any()) {
                    out.close();
                }
            } catch (IOException fault) {
                Library.any();
            }
        }

        @Override
        public boolean usingProxy() {
            return Library.any();
        }
    }
}
