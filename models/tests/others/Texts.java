import java.io.*;
import java.math.*;
import java.nio.*;
import java.nio.channels.*;
import java.util.*;
import java.util.function.*;
import java.util.regex.*;

/** Objects of a user around scanners, patterns, matchers, formatters, joiners and optional values, and what makes these. */
class Texts {
    static class Source implements Readable, Closeable, Seen {
        private int left = 40;
        public int read(CharBuffer into) throws IOException {
            new Hit("Texts$Source read(Ljava/nio/CharBuffer;)I");
            if (left-- <= 0 || into.remaining() < 12) {
                return -1;
            }
            into.put("12 xx true\n");
            return 11;
        }
        public void close() throws IOException { new Hit("Texts$Source close()V"); }
        public void back() { new Hit("Texts$Source back()V"); }
    }

    static class BadSource implements Readable, Seen {
        public int read(CharBuffer into) throws IOException { new Hit("Texts$BadSource read(Ljava/nio/CharBuffer;)I"); throw new BadRead(); }
        public void back() { new Hit("Texts$BadSource back()V"); }
    }

    static class BadRead extends IOException implements Seen {
        public void back() { new Hit("Texts$BadRead back()V"); }
        public String getMessage() { new Hit("Texts$BadRead getMessage()Ljava/lang/String;"); return "m"; }
    }

    static class Channel implements ReadableByteChannel, Seen {
        private int left = 40;
        public int read(ByteBuffer into) throws IOException {
            new Hit("Texts$Channel read(Ljava/nio/ByteBuffer;)I");
            if (left-- <= 0) {
                return -1;
            }
            into.put((byte) "12 xx\n".charAt(left % 6));
            return 1;
        }
        public boolean isOpen() { new Hit("Texts$Channel isOpen()Z"); return true; }
        public void close() throws IOException { new Hit("Texts$Channel close()V"); }
        public void back() { new Hit("Texts$Channel back()V"); }
    }

    static class Sink implements Appendable, Closeable, Flushable, Seen {
        public Appendable append(CharSequence s) throws IOException { new Hit("Texts$Sink append(Ljava/lang/CharSequence;)Ljava/lang/Appendable;"); return this; }
        public Appendable append(CharSequence s, int from, int to) throws IOException {
            new Hit("Texts$Sink append(Ljava/lang/CharSequence;II)Ljava/lang/Appendable;");
            return this;
        }
        public Appendable append(char c) throws IOException { new Hit("Texts$Sink append(C)Ljava/lang/Appendable;"); return this; }
        public void flush() throws IOException { new Hit("Texts$Sink flush()V"); }
        public void close() throws IOException { new Hit("Texts$Sink close()V"); }
        public String toString() { new Hit("Texts$Sink toString()Ljava/lang/String;"); return "sink"; }
        public void back() { new Hit("Texts$Sink back()V"); }
    }

    static class BadSink implements Appendable, Closeable, Seen {
        public Appendable append(CharSequence s) throws IOException {
            new Hit("Texts$BadSink append(Ljava/lang/CharSequence;)Ljava/lang/Appendable;");
            throw new BadRead();
        }
        public Appendable append(CharSequence s, int from, int to) throws IOException {
            new Hit("Texts$BadSink append(Ljava/lang/CharSequence;II)Ljava/lang/Appendable;");
            throw new BadRead();
        }
        public Appendable append(char c) throws IOException { new Hit("Texts$BadSink append(C)Ljava/lang/Appendable;"); throw new BadRead(); }
        public void close() throws IOException { new Hit("Texts$BadSink close()V"); throw new BadRead(); }
        public void back() { new Hit("Texts$BadSink back()V"); }
    }

    /** A text of which there is one that a pattern finds. */
    static class Text implements CharSequence, Seen {
        public int length() { new Hit("Texts$Text length()I"); return 8; }
        public char charAt(int at) { new Hit("Texts$Text charAt(I)C"); return "a12 xx,1".charAt(at); }
        public CharSequence subSequence(int from, int to) { new Hit("Texts$Text subSequence(II)Ljava/lang/CharSequence;"); return new RecSeq(); }
        public String toString() { new Hit("Texts$Text toString()Ljava/lang/String;"); return "a12 xx,1"; }
        public void back() { new Hit("Texts$Text back()V"); }
    }

    /** Is equal to others now and then, and has an order. */
    static class Value implements Comparable<Object>, Seen {
        private static int count;
        public boolean equals(Object other) { new Hit("Texts$Value equals(Ljava/lang/Object;)Z"); return count++ % 2 == 0; }
        public int hashCode() { new Hit("Texts$Value hashCode()I"); return 3; }
        public int compareTo(Object other) { new Hit("Texts$Value compareTo(Ljava/lang/Object;)I"); return 1; }
        public String toString() { new Hit("Texts$Value toString()Ljava/lang/String;"); return "value"; }
        public void back() { new Hit("Texts$Value back()V"); }
    }

    static class Gives implements Supplier<Object>, Function<Object, Object>, Predicate<Object>, Seen {
        public Object get() { new Hit("Texts$Gives get()Ljava/lang/Object;"); return new Value(); }
        public Object apply(Object of) { new Hit("Texts$Gives apply(Ljava/lang/Object;)Ljava/lang/Object;"); return new RecHash(); }
        public boolean test(Object of) { new Hit("Texts$Gives test(Ljava/lang/Object;)Z"); return true; }
        public void back() { new Hit("Texts$Gives back()V"); }
    }

    static class GivesOptional implements Function<Object, Object>, Seen {
        public Object apply(Object of) { new Hit("Texts$GivesOptional apply(Ljava/lang/Object;)Ljava/lang/Object;"); return Optional.of(new Value()); }
        public void back() { new Hit("Texts$GivesOptional back()V"); }
    }

    static class GivesFault implements Supplier<Throwable>, Seen {
        public Throwable get() { new Hit("Texts$GivesFault get()Ljava/lang/Object;"); return new BadRead(); }
        public void back() { new Hit("Texts$GivesFault back()V"); }
    }

    static class Many extends BigDecimal implements Seen {
        Many() { super("12.5"); }
        public BigDecimal abs() { new Hit("Texts$Many abs()Ljava/math/BigDecimal;"); return super.abs(); }
        public int signum() { new Hit("Texts$Many signum()I"); return super.signum(); }
        public BigInteger unscaledValue() { new Hit("Texts$Many unscaledValue()Ljava/math/BigInteger;"); return super.unscaledValue(); }
        public int scale() { new Hit("Texts$Many scale()I"); return super.scale(); }
        public int compareTo(BigDecimal other) { new Hit("Texts$Many compareTo(Ljava/math/BigDecimal;)I"); return super.compareTo(other); }
        public String toString() { new Hit("Texts$Many toString()Ljava/lang/String;"); return super.toString(); }
        public void back() { new Hit("Texts$Many back()V"); }
    }

    static class Day extends Date implements Seen {
        public long getTime() { new Hit("Texts$Day getTime()J"); return super.getTime(); }
        public String toString() { new Hit("Texts$Day toString()Ljava/lang/String;"); return super.toString(); }
        public Object clone() { new Hit("Texts$Day clone()Ljava/lang/Object;"); return super.clone(); }
        public void back() { new Hit("Texts$Day back()V"); }
    }

    static Readable source() { return new Source(); }
    static Readable badSource() { return new BadSource(); }
    static ReadableByteChannel channel() { return new Channel(); }
    static InputStream in() { Data.at = 0; return new RecIn(); }
    static InputStream minIn() { Data.at = 0; return new MinIn(); }
    static Reader reader() { Data.at = 0; return new RecReader(); }
    static OutputStream out() { return new RecOut(); }
    static OutputStream badOut() { return new BadOut(); }
    static Writer writer() { return new RecWriter(); }
    static PrintStream print() { return new RecPrint(new RecOut()); }
    static Appendable sink() { return new Sink(); }
    static Appendable badSink() { return new BadSink(); }
    static CharSequence text() { return new Text(); }
    static CharSequence sequence() { return new RecSeq(); }
    static Value value() { return new Value(); }
    static Object format() { return new RecFormat(); }
    static Object fault() { return new RecFault(); }
    static Object hash() { return new RecHash(); }
    static Object many() { return new Many(); }
    static Object day() { return new Day(); }
    static Gives gives() { return new Gives(); }
    static Function<Object, Object> givesOptional() { return new GivesOptional(); }
    static Supplier<Throwable> givesFault() { return new GivesFault(); }
    static Locale locale() { return Locale.US; }
    static Pattern pattern() { return Pattern.compile("(x)(x)?"); }
    static Pattern digits() { return Pattern.compile("[0-9]+"); }
    static Pattern lower() { return Pattern.compile("X", Pattern.CASE_INSENSITIVE); }
    static Pattern canonical() { return Pattern.compile("x", Pattern.CANON_EQ); }
    static Matcher matcher() { return Pattern.compile("(x)(x)?").matcher(new Text()); }
    static Matcher found() { Matcher all = Pattern.compile("(x)(x)?").matcher(new Text()); all.find(); return all; }
    static Optional<Object> full() { return Optional.of(new Value()); }
    static StringBuffer buffer() { return new StringBuffer(); }
    static Iterable<CharSequence> texts() { return Arrays.<CharSequence>asList(new Text(), new RecSeq()); }

    static void moreFormats() throws Exception {
        Formatter all = new Formatter(new Sink());
        all.format("%s %10.3f %e %x %tY %h", new RecFormat(), new Many(), new Many(), new BigInteger("12"), new Day(), new Value());
        Log.back(all.out());
        all.flush();
        all.close();
    }

    static void moreReplaces() throws Exception {
        Matcher all = Pattern.compile("(x)").matcher(new Text());
        StringBuffer into = new StringBuffer();
        while (all.find()) {
            all.appendReplacement(into, "$1-");
            all.group(1);
        }
        all.appendTail(into);
        all.reset(new RecSeq()).replaceAll("y");
    }

    static void moreSplits() throws Exception {
        Pattern.compile(",").split(new Text());
        Pattern.matches("x+", new RecSeq());
        String.join(",", new Text(), new RecSeq());
        "x".contains(new Text());
        "x".contentEquals(new RecSeq());
        "x".replace(new Text(), new RecSeq());
    }

    static void moreScans() throws Exception {
        Scanner all = new Scanner(new Source());
        while (all.hasNextLine() && all.hasNextInt()) {
            all.nextInt();
            all.nextLine();
        }
        all.close();
        Log.back(new Scanner(new BadSource()).ioException());
    }

    static void moreFaults() throws Exception {
        Scanner all = new Scanner(new BadSource());
        all.hasNext();
        Log.back(all.ioException());
        Formatter one = new Formatter(new BadSink());
        one.format("x");
        one.close();
        Log.back(one.ioException());
    }
}
