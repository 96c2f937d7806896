package java.io;

import java.nio.CharBuffer;
import java.nio.charset.Charset;
import java.nio.charset.CharsetDecoder;
import library.Library;

/**
 * Decodes what it reads from the stream that it wraps, and reads ahead. Each method that reads or asks may call each method of that
 * stream that does. The methods of a user's own decoder are not called.
 */
public class InputStreamReader extends Reader {
    private InputStream in;

    public InputStreamReader(InputStream in) {
        super(in);
        this.in = in;
    }

    public InputStreamReader(InputStream in, String charsetName) throws UnsupportedEncodingException {
        this(in);
        if (charsetName == null) {
            throw new NullPointerException();
        }
        if (Library.any()) {
            throw new UnsupportedEncodingException();
        }
    }

    public InputStreamReader(InputStream in, Charset cs) {
        this(in);
        cs.newDecoder();
    }

    public InputStreamReader(InputStream in, CharsetDecoder dec) {
        this(in);
        if (dec == null) {
            throw new NullPointerException();
        }
    }

    private void draw() throws IOException {
        do {
            Library.mayFail();
            if (in != null && Library.any()) {
                in.read(new byte[Library.number()], 0, Library.number());
            }
            if (in != null && Library.any()) {
                in.read();
            }
            if (in != null && Library.any()) {
                in.available();
            }
        } while (Library.any());
    }

    public String getEncoding() {
        return Library.any() ? null : Library.text();
    }

    /** Java 8 has this from Reader, and later ones read without a call of the reader's other methods. */
    public int read(CharBuffer target) throws IOException {
        draw();
        return super.read(target);
    }

    public int read() throws IOException {
        draw();
        return Library.number();
    }

    public int read(char[] cbuf, int off, int len) throws IOException {
        draw();
        return Library.number();
    }

    public boolean ready() throws IOException {
        draw();
        return Library.any();
    }

    public void close() throws IOException {
        Library.mayFail();
        if (in != null && Library.any()) {
            in.close();
        }
    }
}
