// Where a node raises, the operands go: a path through the field of a holder among them is lost, where no local is
// known to have the same holder.

class F {
    void read() {}
    void close() {}
}

class Holder {
    F f;
}

final class Main {
    static void use(Holder h, int n) {}

    public static void main(String[] words) {
        Holder h = new Holder();
        F a = new F();
        F[] box = new F[1];
        if (words.length > 1) {
            // So the array may have it, for whoever does not look at the order.
            box[0] = a;
            return;
        }
        h.f = a;
        try {
            use(words.length > 0 ? h : h, 1 / words.length);
        } catch (ArithmeticException e) {
            box[0].close();
            a.read();
        }
    }
}
