import java.io.*;
import java.nio.charset.*;
import java.security.*;
import java.util.*;
import java.util.zip.*;

/*
 * Classes of a user around the library's streams. Each of their methods tells the log that it was called. To the verifier the log and the
 * data are nothing: what a JVM runs beside them stands in Run.java.
 */

/** Takes the names of what is called. */
class Log {
    interface Sink {
        void take(String event);
    }

    static Sink sink;

    /** What the library gave: it is told where it is an object of the user. */
    static void back(Object given) {
        if (given instanceof Seen) {
            ((Seen) given).back();
        }
    }

    static void backAll(Object[] given) {
        if (given != null) {
            for (int at = 0; at < given.length; at++) {
                back(given[at]);
            }
        }
    }
}

/** An object of the user, which tells that the library gave it. */
interface Seen {
    void back();
}

/** Is made where a call is recorded: so a report has a place for each recording method that may run. */
class Hit {
    Hit(String name) {
        if (Log.sink != null) {
            Log.sink.take(name);
        }
    }

    void go() {
    }
}

/** What the streams give, and how often a method is called. */
class Data {
    static byte[] bytes;
    static int at;
    static int times;

    static int next() {
        return bytes == null || at >= bytes.length ? -1 : bytes[at++] & 255;
    }
}

class RecIn extends InputStream implements Seen {
    public void back() { new Hit("RecIn back()V"); }
    public int read() throws IOException { new Hit("RecIn read()I"); return Data.next(); }
    public int read(byte[] b) throws IOException { new Hit("RecIn read([B)I"); return fill(b, 0, b.length); }
    public int read(byte[] b, int off, int len) throws IOException { new Hit("RecIn read([BII)I"); return fill(b, off, len); }
    public long skip(long n) throws IOException { new Hit("RecIn skip(J)J"); return Data.next() < 0 ? 0 : 1; }
    public int available() throws IOException { new Hit("RecIn available()I"); return 1; }
    public void close() throws IOException { new Hit("RecIn close()V"); }
    public void mark(int limit) { new Hit("RecIn mark(I)V"); }
    public void reset() throws IOException { new Hit("RecIn reset()V"); }
    public boolean markSupported() { new Hit("RecIn markSupported()Z"); return true; }

    private static int fill(byte[] b, int off, int len) {
        int count = 0;
        while (count < len) {
            int next = Data.next();
            if (next < 0) {
                return count == 0 ? -1 : count;
            }
            b[off + count++] = (byte) next;
        }
        return count;
    }
}

/** Has no more than has to be there. */
class MinIn extends InputStream implements Seen {
    public void back() { new Hit("MinIn back()V"); }
    public int read() throws IOException { new Hit("MinIn read()I"); return Data.next(); }
    public void close() throws IOException { new Hit("MinIn close()V"); }
}

class RecOut extends OutputStream implements Seen {
    public void back() { new Hit("RecOut back()V"); }
    public void write(int b) throws IOException { new Hit("RecOut write(I)V"); }
    public void write(byte[] b) throws IOException { new Hit("RecOut write([B)V"); }
    public void write(byte[] b, int off, int len) throws IOException { new Hit("RecOut write([BII)V"); }
    public void flush() throws IOException { new Hit("RecOut flush()V"); }
    public void close() throws IOException { new Hit("RecOut close()V"); }
}

/** Has no more than has to be there. */
class MinOut extends OutputStream implements Seen {
    public void back() { new Hit("MinOut back()V"); }
    public void write(int b) throws IOException { new Hit("MinOut write(I)V"); }
    public void close() throws IOException { new Hit("MinOut close()V"); }
}

/** Fails where it writes: it is closed nonetheless. */
class BadOut extends OutputStream implements Seen {
    public void back() { new Hit("BadOut back()V"); }
    public void write(int b) throws IOException { new Hit("BadOut write(I)V"); throw new IOException(); }
    public void write(byte[] b, int off, int len) throws IOException { new Hit("BadOut write([BII)V"); throw new IOException(); }
    public void write(byte[] b) throws IOException { new Hit("BadOut write([B)V"); throw new IOException(); }
    public void flush() throws IOException { new Hit("BadOut flush()V"); throw new IOException(); }
    public void close() throws IOException { new Hit("BadOut close()V"); throw new IOException(); }
}

class RecReader extends Reader implements Seen {
    public void back() { new Hit("RecReader back()V"); }
    public int read() throws IOException { new Hit("RecReader read()I"); return Data.next(); }
    public int read(char[] c) throws IOException { new Hit("RecReader read([C)I"); return fill(c, 0, c.length); }
    public int read(char[] c, int off, int len) throws IOException { new Hit("RecReader read([CII)I"); return fill(c, off, len); }
    public int read(java.nio.CharBuffer b) throws IOException { new Hit("RecReader read(Ljava/nio/CharBuffer;)I"); return -1; }
    public long skip(long n) throws IOException { new Hit("RecReader skip(J)J"); return Data.next() < 0 ? 0 : 1; }
    public boolean ready() throws IOException { new Hit("RecReader ready()Z"); return true; }
    public void close() throws IOException { new Hit("RecReader close()V"); }
    public void mark(int limit) throws IOException { new Hit("RecReader mark(I)V"); }
    public void reset() throws IOException { new Hit("RecReader reset()V"); }
    public boolean markSupported() { new Hit("RecReader markSupported()Z"); return true; }

    private static int fill(char[] c, int off, int len) {
        int count = 0;
        while (count < len) {
            int next = Data.next();
            if (next < 0) {
                return count == 0 ? -1 : count;
            }
            c[off + count++] = (char) next;
        }
        return count;
    }
}

/** Has no more than has to be there. */
class MinReader extends Reader implements Seen {
    public void back() { new Hit("MinReader back()V"); }
    public int read(char[] c, int off, int len) throws IOException {
        new Hit("MinReader read([CII)I");
        int next = Data.next();
        c[off] = (char) next;
        return next < 0 ? -1 : 1;
    }
    public void close() throws IOException { new Hit("MinReader close()V"); }
}

class RecWriter extends Writer implements Seen {
    public void back() { new Hit("RecWriter back()V"); }
    public void write(int c) throws IOException { new Hit("RecWriter write(I)V"); }
    public void write(char[] c) throws IOException { new Hit("RecWriter write([C)V"); }
    public void write(char[] c, int off, int len) throws IOException { new Hit("RecWriter write([CII)V"); }
    public void write(String s) throws IOException { new Hit("RecWriter write(Ljava/lang/String;)V"); }
    public void write(String s, int off, int len) throws IOException { new Hit("RecWriter write(Ljava/lang/String;II)V"); }
    public Writer append(CharSequence s) throws IOException { new Hit("RecWriter append(Ljava/lang/CharSequence;)Ljava/io/Writer;"); return this; }
    public Writer append(CharSequence s, int from, int to) throws IOException { new Hit("RecWriter append(Ljava/lang/CharSequence;II)Ljava/io/Writer;"); return this; }
    public Writer append(char c) throws IOException { new Hit("RecWriter append(C)Ljava/io/Writer;"); return this; }
    public void flush() throws IOException { new Hit("RecWriter flush()V"); }
    public void close() throws IOException { new Hit("RecWriter close()V"); }
}

/** Has no more than has to be there. */
class MinWriter extends Writer implements Seen {
    public void back() { new Hit("MinWriter back()V"); }
    public void write(char[] c, int off, int len) throws IOException { new Hit("MinWriter write([CII)V"); }
    public void flush() throws IOException { new Hit("MinWriter flush()V"); }
    public void close() throws IOException { new Hit("MinWriter close()V"); }
}

class RecBuffered extends BufferedWriter implements Seen {
    public void back() { new Hit("RecBuffered back()V"); }
    RecBuffered(Writer out) { super(out); }
    public void write(int c) throws IOException { new Hit("RecBuffered write(I)V"); }
    public void write(char[] c) throws IOException { new Hit("RecBuffered write([C)V"); }
    public void write(char[] c, int off, int len) throws IOException { new Hit("RecBuffered write([CII)V"); }
    public void write(String s) throws IOException { new Hit("RecBuffered write(Ljava/lang/String;)V"); }
    public void write(String s, int off, int len) throws IOException { new Hit("RecBuffered write(Ljava/lang/String;II)V"); }
    public void newLine() throws IOException { new Hit("RecBuffered newLine()V"); }
    public void flush() throws IOException { new Hit("RecBuffered flush()V"); }
}

class RecPrint extends PrintStream implements Seen {
    public void back() { new Hit("RecPrint back()V"); }
    RecPrint(OutputStream out) { super(out); }
    public void println(String s) { new Hit("RecPrint println(Ljava/lang/String;)V"); }
    public boolean checkError() { new Hit("RecPrint checkError()Z"); return false; }
    public void write(int b) { new Hit("RecPrint write(I)V"); }
    public void write(byte[] b, int off, int len) { new Hit("RecPrint write([BII)V"); }
    public void flush() { new Hit("RecPrint flush()V"); }
    public void close() { new Hit("RecPrint close()V"); }
}

class RecSeq implements CharSequence, Seen {
    public void back() { new Hit("RecSeq back()V"); }
    public int length() { new Hit("RecSeq length()I"); return 3; }
    public char charAt(int at) { new Hit("RecSeq charAt(I)C"); return 'x'; }
    public CharSequence subSequence(int from, int to) { new Hit("RecSeq subSequence(II)Ljava/lang/CharSequence;"); return this; }
    public String toString() { new Hit("RecSeq toString()Ljava/lang/String;"); return "xxx"; }
}

class RecObj implements Seen {
    public void back() { new Hit("RecObj back()V"); }
    public String toString() { new Hit("RecObj toString()Ljava/lang/String;"); return "obj"; }
    public int hashCode() { new Hit("RecObj hashCode()I"); return 7; }
}

/** Has the text that every object has, which calls the other method. */
class RecHash implements Seen {
    public void back() { new Hit("RecHash back()V"); }
    public int hashCode() { new Hit("RecHash hashCode()I"); return 7; }
}

/** Has the text that every exception has, which calls the other methods. */
class RecFault extends Exception implements Seen {
    public void back() { new Hit("RecFault back()V"); }
    public String getMessage() { new Hit("RecFault getMessage()Ljava/lang/String;"); return "m"; }
    public String getLocalizedMessage() { new Hit("RecFault getLocalizedMessage()Ljava/lang/String;"); return getMessage(); }
}

class RecFormat implements Formattable, Seen {
    public void back() { new Hit("RecFormat back()V"); }
    public void formatTo(Formatter formatter, int flags, int width, int precision) {
        new Hit("RecFormat formatTo(Ljava/util/Formatter;III)V");
        formatter.format("f");
    }
    public String toString() { new Hit("RecFormat toString()Ljava/lang/String;"); return "fmt"; }
}

class RecStreams implements Enumeration<InputStream>, Seen {
    public void back() { new Hit("RecStreams back()V"); }
    private int left = 3;
    public boolean hasMoreElements() { new Hit("RecStreams hasMoreElements()Z"); return left > 0; }
    public InputStream nextElement() { new Hit("RecStreams nextElement()Ljava/lang/Object;"); left--; return new RecIn(); }
}

class RecSum implements Checksum, Seen {
    public void back() { new Hit("RecSum back()V"); }
    public void update(int b) { new Hit("RecSum update(I)V"); }
    public void update(byte[] b, int off, int len) { new Hit("RecSum update([BII)V"); }
    public long getValue() { new Hit("RecSum getValue()J"); return 0; }
    public void reset() { new Hit("RecSum reset()V"); }
}

class RecDigest extends MessageDigest implements Seen {
    public void back() { new Hit("RecDigest back()V"); }
    RecDigest() { super("rec"); }
    public void update(byte b) { new Hit("RecDigest update(B)V"); super.update(b); }
    public void update(byte[] b, int off, int len) { new Hit("RecDigest update([BII)V"); super.update(b, off, len); }
    protected void engineUpdate(byte b) { new Hit("RecDigest engineUpdate(B)V"); }
    protected void engineUpdate(byte[] b, int off, int len) { new Hit("RecDigest engineUpdate([BII)V"); }
    protected byte[] engineDigest() { new Hit("RecDigest engineDigest()[B"); return new byte[1]; }
    protected void engineReset() { new Hit("RecDigest engineReset()V"); }
    public String toString() { new Hit("RecDigest toString()Ljava/lang/String;"); return "digest"; }
}

/** Has no more than has to be there. */
class MinDigest extends MessageDigest implements Seen {
    public void back() { new Hit("MinDigest back()V"); }
    MinDigest() { super("rec"); }
    protected void engineUpdate(byte b) { new Hit("MinDigest engineUpdate(B)V"); }
    protected void engineUpdate(byte[] b, int off, int len) { new Hit("MinDigest engineUpdate([BII)V"); }
    protected byte[] engineDigest() { new Hit("MinDigest engineDigest()[B"); return new byte[1]; }
    protected void engineReset() { new Hit("MinDigest engineReset()V"); }
    public String toString() { new Hit("MinDigest toString()Ljava/lang/String;"); return "digest"; }
}

class RecInflater extends Inflater implements Seen {
    public void back() { new Hit("RecInflater back()V"); }
    RecInflater() { super(); }
    public int inflate(byte[] b, int off, int len) throws DataFormatException { new Hit("RecInflater inflate([BII)I"); return super.inflate(b, off, len); }
    public void setInput(byte[] b, int off, int len) { new Hit("RecInflater setInput([BII)V"); super.setInput(b, off, len); }
    public boolean needsInput() { new Hit("RecInflater needsInput()Z"); return super.needsInput(); }
    public boolean needsDictionary() { new Hit("RecInflater needsDictionary()Z"); return super.needsDictionary(); }
    public boolean finished() { new Hit("RecInflater finished()Z"); return super.finished(); }
    public void reset() { new Hit("RecInflater reset()V"); super.reset(); }
    public void end() { new Hit("RecInflater end()V"); super.end(); }
    public int getRemaining() { new Hit("RecInflater getRemaining()I"); return super.getRemaining(); }
}

class RecDeflater extends Deflater implements Seen {
    public void back() { new Hit("RecDeflater back()V"); }
    RecDeflater() { super(); }
    public int deflate(byte[] b, int off, int len) { new Hit("RecDeflater deflate([BII)I"); return super.deflate(b, off, len); }
    public int deflate(byte[] b, int off, int len, int flush) { new Hit("RecDeflater deflate([BIII)I"); return super.deflate(b, off, len, flush); }
    public void setInput(byte[] b, int off, int len) { new Hit("RecDeflater setInput([BII)V"); super.setInput(b, off, len); }
    public boolean needsInput() { new Hit("RecDeflater needsInput()Z"); return super.needsInput(); }
    public boolean finished() { new Hit("RecDeflater finished()Z"); return super.finished(); }
    public void finish() { new Hit("RecDeflater finish()V"); super.finish(); }
    public void reset() { new Hit("RecDeflater reset()V"); super.reset(); }
    public void end() { new Hit("RecDeflater end()V"); super.end(); }
}

class RecEntry extends ZipEntry implements Seen {
    public void back() { new Hit("RecEntry back()V"); }
    RecEntry(String name) { super(name); }
    public void setTime(long time) { new Hit("RecEntry setTime(J)V"); super.setTime(time); }
    public boolean isDirectory() { new Hit("RecEntry isDirectory()Z"); return false; }
    public String getName() { new Hit("RecEntry getName()Ljava/lang/String;"); return super.getName(); }
}

class RecData implements DataInput, Seen {
    public void back() { new Hit("RecData back()V"); }
    public void readFully(byte[] b) throws IOException { new Hit("RecData readFully([B)V"); }
    public void readFully(byte[] b, int off, int len) throws IOException { new Hit("RecData readFully([BII)V"); }
    public int skipBytes(int n) throws IOException { new Hit("RecData skipBytes(I)I"); return 0; }
    public boolean readBoolean() throws IOException { new Hit("RecData readBoolean()Z"); return false; }
    public byte readByte() throws IOException { new Hit("RecData readByte()B"); return 0; }
    public int readUnsignedByte() throws IOException { new Hit("RecData readUnsignedByte()I"); return 0; }
    public short readShort() throws IOException { new Hit("RecData readShort()S"); return 0; }
    public int readUnsignedShort() throws IOException { new Hit("RecData readUnsignedShort()I"); return 2; }
    public char readChar() throws IOException { new Hit("RecData readChar()C"); return 0; }
    public int readInt() throws IOException { new Hit("RecData readInt()I"); return 0; }
    public long readLong() throws IOException { new Hit("RecData readLong()J"); return 0; }
    public float readFloat() throws IOException { new Hit("RecData readFloat()F"); return 0; }
    public double readDouble() throws IOException { new Hit("RecData readDouble()D"); return 0; }
    public String readLine() throws IOException { new Hit("RecData readLine()Ljava/lang/String;"); return null; }
    public String readUTF() throws IOException { new Hit("RecData readUTF()Ljava/lang/String;"); return null; }
}

class RecCharset extends Charset implements Seen {
    public void back() { new Hit("RecCharset back()V"); }
    RecCharset() { super("x-rec", null); }
    public boolean contains(Charset other) { new Hit("RecCharset contains(Ljava/nio/charset/Charset;)Z"); return false; }
    public CharsetDecoder newDecoder() { new Hit("RecCharset newDecoder()Ljava/nio/charset/CharsetDecoder;"); return StandardCharsets.UTF_8.newDecoder(); }
    public CharsetEncoder newEncoder() { new Hit("RecCharset newEncoder()Ljava/nio/charset/CharsetEncoder;"); return StandardCharsets.UTF_8.newEncoder(); }
}

/** The usual trick to write properties in another order. */
class RecTable extends Properties implements Seen {
    public void back() { new Hit("RecTable back()V"); }
    RecTable() { super(); }
    RecTable(Properties defaults) { super(defaults); }
    public Object put(Object key, Object value) { new Hit("RecTable put(Ljava/lang/Object;Ljava/lang/Object;)Ljava/lang/Object;"); return super.put(key, value); }
    public Object get(Object key) { new Hit("RecTable get(Ljava/lang/Object;)Ljava/lang/Object;"); return super.get(key); }
    public Enumeration<Object> keys() { new Hit("RecTable keys()Ljava/util/Enumeration;"); return super.keys(); }
    public Set<Map.Entry<Object, Object>> entrySet() { new Hit("RecTable entrySet()Ljava/util/Set;"); return super.entrySet(); }
    public String getProperty(String key) { new Hit("RecTable getProperty(Ljava/lang/String;)Ljava/lang/String;"); return super.getProperty(key); }
}
