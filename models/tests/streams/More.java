import java.io.*;
import java.util.*;
import java.util.zip.*;

/** Scenarios that no list makes: fields that classes below see, streams around streams around streams, and what fails. */
class More {
    static class OutBelow extends BufferedOutputStream {
        OutBelow(OutputStream out) { super(out); }
        void direct() throws IOException { out.write(1); out.flush(); }
    }

    static class DataBelow extends DataOutputStream {
        DataBelow(OutputStream out) { super(out); }
        void direct() throws IOException { out.write(1); out.close(); }
    }

    static class PackBelow extends GZIPOutputStream {
        PackBelow(OutputStream out) throws IOException { super(out); }
        void direct() throws IOException { out.close(); def.setLevel(1); }
    }

    static class PrintBelow extends PrintWriter {
        PrintBelow(OutputStream out) { super(out); }
        PrintBelow(String name) throws IOException { super(name); }
        void direct() throws IOException { out.write("x"); out.flush(); }
        void cast() throws IOException { ((BufferedWriter) out).newLine(); out.close(); }
    }

    static class LockBelow extends BufferedReader {
        LockBelow(Reader in) { super(in); }
        public String readLine() throws IOException {
            synchronized (lock) {
                return super.readLine();
            }
        }
    }

    static class ZipBelow extends ZipInputStream {
        ZipBelow(InputStream in) { super(in); }
        void direct() throws IOException { ((PushbackInputStream) in).unread(in.read()); in.close(); }
    }

    static class LineBelow extends DataInputStream {
        LineBelow(InputStream in) { super(in); }
        void direct() throws IOException { readLine(); ((PushbackInputStream) in).unread(1); in.close(); }
    }

    static class OwnPush extends PushbackInputStream {
        OwnPush(InputStream in) { super(in); }
        public void unread(int b) throws IOException { new Hit("More$OwnPush unread(I)V"); super.unread(b); }
    }

    /** A decorator of an application. */
    static class Counting extends InputStream {
        private final InputStream in;
        Counting(InputStream in) { this.in = in; }
        public int read() throws IOException { return in.read(); }
        public void close() throws IOException { in.close(); }
    }

    static void outBelow() throws Exception { OutBelow w = new OutBelow(new RecOut()); w.direct(); }
    static void dataBelow() throws Exception { DataBelow w = new DataBelow(new RecOut()); w.direct(); }
    static void packBelow() throws Exception { PackBelow w = new PackBelow(new RecOut()); w.direct(); }
    static void printBelow() throws Exception { PrintBelow w = new PrintBelow(new RecOut()); w.direct(); }
    static void printCast() throws Exception { PrintBelow w = new PrintBelow(new RecOut()); w.cast(); }
    static void printFile() throws Exception { RecOut r = new RecOut(); PrintBelow w = new PrintBelow("/dev/null"); w.direct(); w.cast(); r.close(); }
    static void lockBelow() throws Exception { LockBelow w = new LockBelow(new RecReader()); w.readLine(); w.close(); }
    static void zipBelow() throws Exception { ZipBelow w = new ZipBelow(new RecIn()); w.direct(); }
    static void lineBelow() throws Exception { LineBelow w = new LineBelow(new RecIn()); w.direct(); }
    static void ownPush() throws Exception { DataInputStream w = new DataInputStream(new OwnPush(new RecIn())); w.readLine(); w.readLine(); w.readLine(); w.readLine(); }

    static void chainIn() throws Exception {
        try (BufferedReader w = new BufferedReader(new InputStreamReader(new Counting(new BufferedInputStream(new RecIn()))))) {
            w.readLine();
        }
    }

    static void chainZip() throws Exception {
        try (Reader w = new LineNumberReader(new InputStreamReader(new GZIPInputStream(new BufferedInputStream(new MinIn())), "UTF-8"))) {
            w.read();
        }
    }

    static void chainOut() throws Exception {
        try (PrintWriter w = new PrintWriter(new BufferedWriter(new OutputStreamWriter(new GZIPOutputStream(new BufferedOutputStream(new RecOut())))))) {
            w.println("x");
        }
    }

    static void lines() throws Exception { new BufferedReader(new RecReader()).lines().count(); }
    static void buffer() throws Exception { RecOut r = new RecOut(); StringWriter w = new StringWriter(); if (w.getBuffer() == w.getBuffer()) { r.close(); } }
    static void collected() throws Exception { RecOut r = new RecOut(); ByteArrayOutputStream w = new ByteArrayOutputStream(); w.write(1); w.writeTo(r); if (w.toByteArray().length > 0) { r.close(); } }

    static void badSize() throws Exception { RecIn r = new RecIn(); try { new BufferedInputStream(r, 0); } catch (IllegalArgumentException e) { r.close(); } }
    static void badReader() throws Exception { RecIn r = new RecIn(); try { new BufferedReader(null); } catch (NullPointerException e) { r.close(); } }
    static void badText() throws Exception { RecIn r = new RecIn(); try { new StringReader(null); } catch (NullPointerException e) { r.close(); } }
    static void badBytes() throws Exception { RecIn r = new RecIn(); try { new ByteArrayInputStream(null); } catch (NullPointerException e) { r.close(); } }
    static void badStart() throws Exception { RecIn r = new RecIn(); try { new CharArrayReader(new char[1], 5, 1); } catch (IllegalArgumentException e) { r.close(); } }
    static void badCount() throws Exception { RecIn r = new RecIn(); try { new ByteArrayOutputStream(-1); } catch (IllegalArgumentException e) { r.close(); } }
    static void badName() throws Exception { RecIn r = new RecIn(); try { new InputStreamReader(r, "no-such"); } catch (UnsupportedEncodingException e) { r.close(); } }
    static void badFile() throws Exception { RecIn r = new RecIn(); try { new PrintWriter("/no/such/file"); } catch (FileNotFoundException e) { r.close(); } }
    static void badPack() throws Exception { RecIn r = new RecIn(); try { new GZIPInputStream(r); } catch (IOException e) { r.close(); } }
    static void badKind() throws Exception { RecIn r = new RecIn(); try { new GZIPInputStream(r); } catch (ZipException e) { r.close(); } }
    static void badEnd() throws Exception { RecIn r = new RecIn(); try { new DataInputStream(new ByteArrayInputStream(new byte[1])).readInt(); } catch (EOFException e) { r.close(); } }
    static void badClosed() throws Exception { RecIn r = new RecIn(); StringReader w = new StringReader("x"); w.close(); try { w.read(); } catch (IOException e) { r.close(); } }
    static void badRange() throws Exception { RecIn r = new RecIn(); try { new StringReader("x").read(new char[1], 2, 3); } catch (IndexOutOfBoundsException e) { r.close(); } }
    static void badPart() throws Exception { RecIn r = new RecIn(); try { new StringWriter().write("x", 2, 3); } catch (IndexOutOfBoundsException e) { r.close(); } }
    static void badArray() throws Exception { RecIn r = new RecIn(); try { new ByteArrayInputStream(new byte[1]).read(new byte[1], 2, 3); } catch (IndexOutOfBoundsException e) { r.close(); } }
    static void badWrite() throws Exception { RecIn r = new RecIn(); try { new CharArrayWriter().write(new char[1], 2, 3); } catch (IndexOutOfBoundsException e) { r.close(); } }
    static void badPush() throws Exception { RecIn r = new RecIn(); PushbackInputStream w = new PushbackInputStream(r); w.unread(1); try { w.unread(1); } catch (IOException e) { r.close(); } }
    static void badMark() throws Exception { RecIn r = new RecIn(); try { new InputStreamReader(r).mark(1); } catch (IOException e) { r.close(); } }
    static void badLimit() throws Exception { RecIn r = new RecIn(); try { new StringReader("x").mark(-1); } catch (IllegalArgumentException e) { r.close(); } }
    static void badLine() throws Exception { RecReader r = new RecReader(); try { new LineNumberReader(r).skip(-1); } catch (IllegalArgumentException e) { r.close(); } }
    static void badEntry() throws Exception { RecOut r = new RecOut(); ZipOutputStream w = new ZipOutputStream(r); try { w.write(1); } catch (ZipException e) { r.close(); } }
    static void badMethod() throws Exception { RecOut r = new RecOut(); ZipOutputStream w = new ZipOutputStream(r); try { w.setMethod(77); } catch (IllegalArgumentException e) { r.close(); } }
    static void badFormat() throws Exception { RecOut r = new RecOut(); PrintWriter w = new PrintWriter(r); try { w.printf("%d", "x"); } catch (IllegalArgumentException e) { r.close(); } }
    static void badAppend() throws Exception { RecOut r = new RecOut(); PrintWriter w = new PrintWriter(r); try { w.append("x", 3, 5); } catch (IndexOutOfBoundsException e) { r.close(); } }
    static void badXml() throws Exception { RecIn r = new RecIn(); try { new Properties().loadFromXML(r); } catch (InvalidPropertiesFormatException e) { r.reset(); } }
    static void badEscape() throws Exception { RecIn r = new RecIn(); try { new Properties().load(new StringReader("a=\\uxyzw")); } catch (IllegalArgumentException e) { r.reset(); } }
    static void badKey() throws Exception { RecIn r = new RecIn(); try { new Properties().setProperty(null, "x"); } catch (NullPointerException e) { r.reset(); } }
}
