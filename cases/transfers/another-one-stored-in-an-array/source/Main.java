// A store into an array of what is not the object tells nothing of it: what the array may hold is another one.

class F {
    void read() {}
    void close() {}
}

final class Main {
    public static void main(String[] words) {
        F a = new F();
        F[] box = new F[1];
        if (words.length > 1) {
            // So the array may have it, for whoever does not look at the order.
            box[0] = a;
            return;
        }
        box[0] = new F();
        box[0].close();
        a.read();
    }
}
