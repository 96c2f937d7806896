// A stub that keeps another argument tells nothing of the object: what it gives is another one.

class F {
    void read() {}
    void close() {}
}

final class Main {
    public static void main(String[] words) {
        F a = new F();
        F[] box = new F[1];
        if (words.length > 1) {
            // So the array may have it, for whoever does not look at the order.
            box[0] = a;
            return;
        }
        Lib.keep(new F(), a);
        Lib.give().close();
        box[0].close();
        a.read();
    }
}
