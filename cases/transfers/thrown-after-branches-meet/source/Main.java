// The first operand of a handler has also what the slot of the thrown value had: the path through its field is not
// lost, though no local is known to have the same holder.

class F {
    void read() {}
    void close() {}
}

class Failure extends RuntimeException {
    F f;
}

final class Main {
    public static void main(String[] words) {
        Failure h = new Failure();
        F a = new F();
        F[] box = new F[1];
        if (words.length > 1) {
            // So the array may have it, for whoever does not look at the order.
            box[0] = a;
            return;
        }
        h.f = a;
        try {
            throw words.length > 0 ? h : h;
        } catch (Failure e) {
            // It is h still.
        }
        box[0].close();
        a.read();
    }
}
