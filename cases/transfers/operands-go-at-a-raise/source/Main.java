// Where a node raises, the operands are gone: they do not count among the six paths.

class F {
    void read() {}
    void close() {}
}

final class Main {
    static void use(String[] words, F f, int n) {}

    public static void main(String[] words) {
        F a = new F();
        F[] box = new F[1];
        if (words.length > 1) {
            // So the array may have it, for whoever does not look at the order.
            box[0] = a;
            return;
        }
        F b = a;
        F c = a;
        F d = a;
        F e = a;
        try {
            use(words, a, 1 / words.length);
        } catch (ArithmeticException f) {
            if (e == null) {
                return;
            }
            box[0].close();
            a.read();
        }
    }
}
