package java.util;

import java.io.Closeable;
import java.io.File;
import java.io.FileNotFoundException;
import java.io.IOException;
import java.io.InputStream;
import java.math.BigDecimal;
import java.math.BigInteger;
import java.nio.ByteBuffer;
import java.nio.CharBuffer;
import java.nio.channels.ReadableByteChannel;
import java.nio.file.Path;
import java.util.function.Consumer;
import java.util.regex.MatchResult;
import java.util.regex.Pattern;
import library.Library;

/**
 * Reads ahead from its source, whose exceptions it catches and tells. Each method that looks at the text may call each method of the
 * source that reads or asks, also those that the library's class does not. What it opens by the name of a file is not to be seen; a path gives
 * the stream by its file system, which may be one of the program.
 */
public final class Scanner implements Iterator<String>, Closeable {
    private InputStream in;
    private Readable source;
    private ReadableByteChannel channel;
    private CharBuffer buffer;
    private ByteBuffer bytes;
    private Pattern delimiter;
    private Locale locale;
    private IOException fault;

    public Scanner(Readable source) {
        if (source == null) {
            throw new NullPointerException();
        }
        this.source = source;
    }

    public Scanner(InputStream source) {
        if (source == null) {
            throw new NullPointerException();
        }
        this.in = source;
    }

    public Scanner(InputStream source, String charsetName) {
        this(source);
        Library.any();
    }

    public Scanner(File source) throws FileNotFoundException {
        source.getPath();
        open();
    }

    public Scanner(File source, String charsetName) throws FileNotFoundException {
        this(source);
    }

    public Scanner(Path source) throws IOException {
        Library.mayFail();
        this.in = source.getFileSystem().provider().newInputStream(source);
    }

    public Scanner(Path source, String charsetName) throws IOException {
        this(source);
    }

    public Scanner(String source) {
        if (source == null) {
            throw new NullPointerException();
        }
    }

    public Scanner(ReadableByteChannel source) {
        if (source == null) {
            throw new NullPointerException();
        }
        this.channel = source;
    }

    public Scanner(ReadableByteChannel source, String charsetName) {
        this(source);
        Library.any();
    }

    private static native void open() throws FileNotFoundException;

    /** Reads some of the source, or nothing. */
    private void draw() {
        while (Library.any()) {
            try {
                Library.mayFail();
                if (source != null) {
                    drawText();
                }
                if (in != null) {
                    drawBytes();
                }
                if (channel != null) {
                    drawChannel();
                }
            } catch (IOException each) {
                fault = each;
            }
        }
    }

    private void drawText() throws IOException {
        if (buffer == null) {
            buffer = CharBuffer.allocate(Library.number());
        }
        if (Library.any()) {
            source.read(buffer);
        }
    }

    private void drawBytes() throws IOException {
        if (Library.any()) {
            in.read(new byte[Library.number()], 0, Library.number());
        }
        if (Library.any()) {
            in.read();
        }
        if (Library.any()) {
            in.available();
        }
    }

    private void drawChannel() throws IOException {
        if (bytes == null) {
            bytes = ByteBuffer.allocate(Library.number());
        }
        if (Library.any()) {
            channel.read(bytes);
        }
        if (Library.any()) {
            channel.isOpen();
        }
    }

    public void close() {
        try {
            Library.mayFail();
            if (source instanceof Closeable && Library.any()) {
                ((Closeable) source).close();
            }
            if (in != null && Library.any()) {
                in.close();
            }
            if (channel != null && Library.any()) {
                channel.close();
            }
        } catch (IOException each) {
            fault = each;
        }
    }

    public IOException ioException() {
        return fault;
    }

    public Pattern delimiter() {
        if (delimiter == null) {
            delimiter = Pattern.compile(Library.text());
        }
        return delimiter;
    }

    public Scanner useDelimiter(Pattern pattern) {
        delimiter = pattern;
        return this;
    }

    public Scanner useDelimiter(String pattern) {
        delimiter = Pattern.compile(pattern);
        return this;
    }

    public Locale locale() {
        if (locale == null) {
            locale = Locale.getDefault();
        }
        return locale;
    }

    public Scanner useLocale(Locale locale) {
        this.locale = locale;
        return this;
    }

    public int radix() {
        return Library.number();
    }

    public Scanner useRadix(int radix) {
        Library.any();
        return this;
    }

    public native MatchResult match();

    public String toString() {
        return Library.text();
    }

    public boolean hasNext() {
        draw();
        return Library.any();
    }

    public String next() {
        draw();
        return Library.text();
    }

    public void remove() {
        throw new UnsupportedOperationException();
    }

    @Override
    public void forEachRemaining(Consumer<? super String> action) {
        while (hasNext()) {
            action.accept(next());
        }
    }

    public boolean hasNext(String pattern) {
        draw();
        return Library.any();
    }

    public String next(String pattern) {
        draw();
        return Library.text();
    }

    public boolean hasNext(Pattern pattern) {
        draw();
        return Library.any();
    }

    public String next(Pattern pattern) {
        draw();
        return Library.text();
    }

    public boolean hasNextLine() {
        draw();
        return Library.any();
    }

    public String nextLine() {
        draw();
        return Library.text();
    }

    public String findInLine(String pattern) {
        return find();
    }

    public String findInLine(Pattern pattern) {
        return find();
    }

    public String findWithinHorizon(String pattern, int horizon) {
        return find();
    }

    public String findWithinHorizon(Pattern pattern, int horizon) {
        return find();
    }

    private String find() {
        draw();
        return Library.any() ? null : Library.text();
    }

    public Scanner skip(Pattern pattern) {
        draw();
        return this;
    }

    public Scanner skip(String pattern) {
        draw();
        return this;
    }

    public boolean hasNextBoolean() {
        draw();
        return Library.any();
    }

    public boolean nextBoolean() {
        draw();
        return Library.any();
    }

    public boolean hasNextByte() {
        draw();
        return Library.any();
    }

    public boolean hasNextByte(int radix) {
        draw();
        return Library.any();
    }

    public byte nextByte() {
        draw();
        return (byte) Library.number();
    }

    public byte nextByte(int radix) {
        draw();
        return (byte) Library.number();
    }

    public boolean hasNextShort() {
        draw();
        return Library.any();
    }

    public boolean hasNextShort(int radix) {
        draw();
        return Library.any();
    }

    public short nextShort() {
        draw();
        return (short) Library.number();
    }

    public short nextShort(int radix) {
        draw();
        return (short) Library.number();
    }

    public boolean hasNextInt() {
        draw();
        return Library.any();
    }

    public boolean hasNextInt(int radix) {
        draw();
        return Library.any();
    }

    public int nextInt() {
        draw();
        return Library.number();
    }

    public int nextInt(int radix) {
        draw();
        return Library.number();
    }

    public boolean hasNextLong() {
        draw();
        return Library.any();
    }

    public boolean hasNextLong(int radix) {
        draw();
        return Library.any();
    }

    public long nextLong() {
        draw();
        return Library.number();
    }

    public long nextLong(int radix) {
        draw();
        return Library.number();
    }

    public boolean hasNextFloat() {
        draw();
        return Library.any();
    }

    public float nextFloat() {
        draw();
        return Library.number();
    }

    public boolean hasNextDouble() {
        draw();
        return Library.any();
    }

    public double nextDouble() {
        draw();
        return Library.number();
    }

    public boolean hasNextBigInteger() {
        draw();
        return Library.any();
    }

    public boolean hasNextBigInteger(int radix) {
        draw();
        return Library.any();
    }

    public BigInteger nextBigInteger() {
        draw();
        return integer();
    }

    public BigInteger nextBigInteger(int radix) {
        draw();
        return integer();
    }

    public boolean hasNextBigDecimal() {
        draw();
        return Library.any();
    }

    public BigDecimal nextBigDecimal() {
        draw();
        return decimal();
    }

    private native BigInteger integer();

    private native BigDecimal decimal();

    public Scanner reset() {
        return this;
    }
}
