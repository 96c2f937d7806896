// Where two ways meet, the slot on the stack is no more known to have the holder that the local has: the path through
// its field is lost when the slot goes.

class F {
    void read() {}
    void close() {}
}

class Holder {
    F f;
}

final class Main {
    public static void main(String[] words) {
        Holder h = new Holder();
        F a = new F();
        F[] box = new F[1];
        if (words.length > 1) {
            // So the array may have it, for whoever does not look at the order.
            box[0] = a;
            return;
        }
        h.f = a;
        F b = (words.length > 0 ? h : h).f;
        box[0].close();
        a.read();
    }
}
