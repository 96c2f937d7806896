// The slots of arguments are gone after a call: they do not count among the six paths.

class F {
    void read() {}
    void close() {}
}

final class Main {
    static void pass(String[] words, F f) {}

    public static void main(String[] words) {
        F a = new F();
        F[] box = new F[1];
        if (words.length > 1) {
            // So the array may have it, for whoever does not look at the order.
            box[0] = a;
            return;
        }
        F b = a;
        F c = a;
        F d = a;
        F e = a;
        pass(words, a);
        if (e == null) {
            return;
        }
        box[0].close();
        a.read();
    }
}
