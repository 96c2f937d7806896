package java.util.zip;

import java.io.IOException;
import java.io.InputStream;
import java.io.PushbackInputStream;
import java.nio.charset.Charset;
import library.Library;

/** Unpacks entries that it reads from the stream that it wraps. In between there is a stream that takes bytes back, as in the library's class. */
public class ZipInputStream extends InflaterInputStream implements ZipConstants {
    public ZipInputStream(InputStream in) {
        super(new PushbackInputStream(in, 1), new Inflater(true), 1);
        if (in == null) {
            throw new NullPointerException();
        }
    }

    public ZipInputStream(InputStream in, Charset charset) {
        this(in);
        charset.newDecoder();
    }

    public ZipEntry getNextEntry() throws IOException {
        Library.mayFail();
        if (Library.any()) {
            closeEntry();
        }
        draw(in);
        if (inf != null && Library.any()) {
            inf.reset();
        }
        ZipEntry entry = null;
        if (Library.any()) {
            entry = createZipEntry(Library.text());
        }
        draw(in);
        return entry;
    }

    public void closeEntry() throws IOException {
        Library.mayFail();
        while (Library.any()) {
            read(new byte[Library.number()], 0, Library.number());
        }
    }

    public int available() throws IOException {
        Library.mayFail();
        return Library.number();
    }

    public int read(byte[] b, int off, int len) throws IOException {
        if (Library.any()) {
            super.read(b, off, len);
        }
        draw(in);
        if (inf != null && Library.any()) {
            inf.getRemaining();
        }
        if (inf != null && Library.any()) {
            inf.getBytesRead();
        }
        if (inf != null && Library.any()) {
            inf.getBytesWritten();
        }
        return Library.number();
    }

    public long skip(long n) throws IOException {
        Library.mayFail();
        while (Library.any()) {
            read(new byte[Library.number()], 0, Library.number());
        }
        return Library.number();
    }

    public void close() throws IOException {
        super.close();
    }

    protected ZipEntry createZipEntry(String name) {
        return new ZipEntry(name);
    }
}
