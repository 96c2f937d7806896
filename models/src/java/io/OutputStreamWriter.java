package java.io;

import java.nio.charset.Charset;
import java.nio.charset.CharsetEncoder;
import library.Library;

/**
 * Encodes what it is given, and writes it to the stream that it wraps, then or later. The methods of a user's own encoder are not called.
 */
public class OutputStreamWriter extends Writer {
    private OutputStream out;

    public OutputStreamWriter(OutputStream out, String charsetName) throws UnsupportedEncodingException {
        this(out);
        if (charsetName == null) {
            throw new NullPointerException();
        }
        if (Library.any()) {
            throw new UnsupportedEncodingException();
        }
    }

    public OutputStreamWriter(OutputStream out) {
        super(out);
        this.out = out;
    }

    public OutputStreamWriter(OutputStream out, Charset cs) {
        this(out);
        cs.newEncoder();
    }

    public OutputStreamWriter(OutputStream out, CharsetEncoder enc) {
        this(out);
        if (enc == null) {
            throw new NullPointerException();
        }
    }

    /** Writes bytes: write(int) is what OutputStream's own body calls. */
    private void pour() throws IOException {
        do {
            Library.mayFail();
            if (out != null && Library.any()) {
                out.write(new byte[Library.number()], 0, Library.number());
            }
            if (out != null && Library.any()) {
                out.write(Library.number());
            }
        } while (Library.any());
    }

    public String getEncoding() {
        return Library.any() ? null : Library.text();
    }

    public void write(int c) throws IOException {
        pour();
    }

    public void write(char[] cbuf, int off, int len) throws IOException {
        pour();
    }

    public void write(String str, int off, int len) throws IOException {
        pour();
    }

    /** Java 8 has this from Writer, and later ones write without a call of the writer's other methods. */
    public Writer append(CharSequence csq) throws IOException {
        if (Library.any()) {
            return super.append(csq);
        }
        if (csq != null && Library.any()) {
            csq.toString();
        }
        pour();
        return this;
    }

    public void flush() throws IOException {
        pour();
        if (out != null && Library.any()) {
            out.flush();
        }
    }

    /** Java 17 flushes the stream before. */
    public void close() throws IOException {
        try (OutputStream closed = Library.any() ? out : null) {
            pour();
            if (out != null && Library.any()) {
                out.flush();
            }
        }
    }
}
