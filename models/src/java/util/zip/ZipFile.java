package java.util.zip;

import java.io.Closeable;
import java.io.File;
import java.io.IOException;
import java.io.InputStream;
import java.nio.charset.Charset;
import java.util.Enumeration;
import java.util.stream.Stream;
import library.Library;

/**
 * A file of entries. Each stream that it gives is new, and is closed with the file. It has no finalize, since objects of a class that has
 * one are refused.
 */
public class ZipFile implements ZipConstants, Closeable {
    public static final int OPEN_READ = 1;
    public static final int OPEN_DELETE = 4;
    private Opened opened;

    public ZipFile(String name) throws IOException {
        Library.mayFail();
    }

    public ZipFile(File file, int mode) throws IOException {
        open(file);
    }

    public ZipFile(File file) throws ZipException, IOException {
        open(file);
    }

    public ZipFile(File file, int mode, Charset charset) throws IOException {
        open(file);
    }

    public ZipFile(String name, Charset charset) throws IOException {
        Library.mayFail();
    }

    public ZipFile(File file, Charset charset) throws IOException {
        open(file);
    }

    private static void open(File file) throws IOException {
        Library.mayFail();
        file.getPath();
    }

    public String getComment() {
        return Library.any() ? null : Library.text();
    }

    public native ZipEntry getEntry(String name);

    public InputStream getInputStream(ZipEntry entry) throws IOException {
        Library.mayFail();
        InputStream found = stream(entry);
        if (found != null) {
            opened = new Opened(found, opened);
        }
        return found;
    }

    private native InputStream stream(ZipEntry entry);

    public String getName() {
        return Library.text();
    }

    public native Enumeration<? extends ZipEntry> entries();

    public native Stream<? extends ZipEntry> stream();

    public int size() {
        return Library.number();
    }

    public void close() throws IOException {
        Library.mayFail();
        for (Opened each = opened; each != null; each = each.before) {
            if (Library.any()) {
                each.stream.close();
            }
        }
    }

    /** A stream that was given, with those before it. */
    private static final class Opened {
        final InputStream stream;
        final Opened before;

        Opened(InputStream stream, Opened before) {
            this.stream = stream;
            this.before = before;
        }
    }
}
