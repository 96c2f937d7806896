// What was thrown is forgotten when it is caught: what a stub throws later is another object, and it is that one that
// is opened.

class F extends RuntimeException {
    void open() {}
    void read() {}
}

final class Main {
    public static void main(String[] words) {
        F a = new F();
        try {
            throw a;
        } catch (F b) {
            // It is a still.
        }
        try {
            Lib.fail();
        } catch (F b) {
            b.open();
            a.read();
        }
    }
}
